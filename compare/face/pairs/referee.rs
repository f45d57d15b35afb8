//! Which refusal is due: request n's sentences over the scan's referee. Nothing of the core's source.

use super::shape::Call;
use super::world::World;
use crate::rules::*;
use crate::scans::referee::{buffers_fit, due_of};
use crate::scans::shape::{Call as ScanCall, List};

/// 11 comes before all others. What is judged is the common part, and of the channels only the named one; of a reset both.
pub fn due(w: &World, call: &Call) -> Judged {
    match call {
        Call::Channel(number, call) => {
            require(*number < 2, NO_SUCH_CHANNEL)?;
            due_of(&w.seen(*number as usize), call)
        }
        Call::Common(ScanCall::Reset) => reset(w),
        Call::Common(call @ ScanCall::New { rate, ceiling }) => {
            due_of(&w.seen(0), call)?;
            let bins = Bins::of(*rate as u64, *ceiling as u64);
            buffers_fit(&w.seen(1), &[List::LagSums], &bins)
        }
        Call::Common(call) => due_of(&w.common(), call),
    }
}

/// All lengths come before any rule.
fn reset(w: &World) -> Judged {
    let first = due_of(&w.seen(0), &ScanCall::Reset);
    let second = due_of(&w.seen(1), &ScanCall::Reset);
    let refused = |number: u32| [first, second].contains(&Err(number));
    require(!refused(OUTSIDE_TABLE), OUTSIDE_TABLE)?;
    require(!refused(WRONG_LENGTH), WRONG_LENGTH)?;
    require(!refused(BROKEN_STATE), BROKEN_STATE)
}
