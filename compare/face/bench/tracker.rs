//! A tracker's cycle: interior candidates that hold, wait, confirm and jump, with unconfident and edge cycles between.

use crate::bench::times::{nanoseconds, Times};
use crate::face;
use crate::random::Random;
use crate::track::{CycleOutcome, Tracker};
use std::hint::black_box;

const COUNT: usize = 2_000;

pub fn cycle() {
    let mut random = Random::new(5);
    let cycles: Vec<(u32, u64)> = (0..COUNT)
        .map(|_| {
            let kind = random.one_of(&[1, 1, 1, 1, 0, 2]);
            (kind, random.one_of(&[4_800, 4_700, 4_500, 4_480, 9_000]))
        })
        .collect();
    let mut state = [0; 15];
    assert_eq!(face::tracker::new(&mut state, 48_000), 16);
    let mut values = [0];
    let mut original = Tracker::new(48_000);
    let times = Times::take(
        400,
        || {
            nanoseconds(|| {
                for (kind, delay) in &cycles {
                    black_box(face::tracker::on_cycle(
                        &mut state,
                        4_800,
                        *kind,
                        *delay,
                        &mut values,
                    ));
                }
            })
        },
        || {
            nanoseconds(|| {
                for (kind, delay) in &cycles {
                    let outcome = match kind {
                        0 => CycleOutcome::Unconfident,
                        kind => CycleOutcome::Candidate {
                            delay: *delay as usize,
                            interior: *kind == 1,
                        },
                    };
                    black_box(original.on_cycle(4_800, black_box(outcome)));
                }
            })
        },
    );
    times.row("tracker cycle", COUNT);
}
