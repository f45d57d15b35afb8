//! Where an echo lives: the proved delay decisions of Trimolaveg, for hosts in Rust, without `std`.
//!
//! Each part is a struct that owns its state and borrows its lists; nothing allocates. A call answers `Err` with a [`Refusal`] and has then changed nothing. What is proved is the core below; this crate
//! hands slices over as pointers and lengths, and numbers back as enums. `include/trimolaveg.h` says what each call does and refuses.
//!
//! ```
//! use trimolaveg::{scan, Scan, ScanMemory, Taking};
//! const RATE: u32 = 48_000;
//! const CEILING: u32 = 500;
//! const LAGS: usize = scan::lags_len(RATE, CEILING);
//! const PREFIX: usize = scan::prefix_len(RATE, CEILING);
//! let mut envelope = [0.0; scan::envelope_len(RATE, CEILING)];
//! let mut levels = [0.0; scan::levels_len(RATE, CEILING)];
//! let mut window = [0.0; scan::window_len(RATE, CEILING)];
//! let (mut prefix, mut squares) = ([0.0; PREFIX], [0.0; PREFIX]);
//! let (mut scores, mut lag_sums) = ([0.0; LAGS], [0.0; LAGS]);
//! let memory = ScanMemory {
//!     envelope: &mut envelope, levels: &mut levels, lag_sums: &mut lag_sums,
//!     window: &mut window, prefix: &mut prefix, squares: &mut squares, scores: &mut scores,
//! };
//! let mut scan = Scan::new(memory, RATE, CEILING).unwrap();
//! assert_eq!(scan.push_far(&[0.5; 480]), Ok(()));
//! assert_eq!(scan.push_near(0.25, 0), Ok(Taking::Taken));
//! assert_eq!(scan.finished(), Ok(false));
//! ```
#![no_std]
#![deny(unsafe_op_in_unsafe_fn, missing_docs)]

mod answers;
// Some of it is for the tests and for compare/face: lengths and words are constants here.
#[allow(dead_code)]
mod face;
pub mod fine;
pub mod floats;
pub mod pair;
pub mod panel;
pub mod ring;
pub mod scan;
#[cfg(test)]
mod tests;
pub mod tracker;

pub use answers::Refusal;
pub use fine::{Candidate, Fine, FineTaking, Gate, Peak, Positions, Rescan};
pub use pair::{Channel, Pair, PairMemory};
pub use panel::Panel;
pub use ring::{Missing, Ring};
pub use scan::{Frame, Region, Scan, ScanMemory, Scored, Taking};
pub use tracker::{Cycle, Tracker, Trigger, Verdict};

/// The version of the archive that was linked: major * 10,000 + minor * 100 + patch.
pub fn version() -> u32 {
    face::version()
}
