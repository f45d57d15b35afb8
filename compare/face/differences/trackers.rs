//! Inputs to the tracker.

use super::told::{refused, Difference};
use crate::face::tracker as face;
use crate::rules::LIMIT;
use crate::track::{CycleOutcome, Tracker};

pub fn all() -> Vec<Difference> {
    vec![slow(), far_off(), over()]
}

fn slow() -> Difference {
    let late = Tracker::new(7_999).bands()[0];
    Difference {
        input: "a tracker at 7,999",
        rust: (
            format!("has a late band of {late}"),
            "has a late band of 31",
        ),
        here: (refused(face::new(&mut [0; 15], 7_999)), "refuses with 1"),
    }
}

/// A contradicting cycle, and then a cut: the original's run is 0 again, and so is all that it can tell.
fn over() -> Difference {
    let mut state = [0; 15];
    let mut values = [0];
    face::new(&mut state, 48_000);
    let mut original = Tracker::new(48_000);
    for delay in [4_800, 96_000] {
        face::on_cycle(&mut state, 4_800, 1, delay, &mut values);
        original.on_cycle(
            4_800,
            CycleOutcome::Candidate {
                delay: delay as usize,
                interior: true,
            },
        );
    }
    face::on_discontinuity(&mut state);
    original.on_discontinuity();
    face::longest_run(&state, &mut values);
    Difference {
        input: "a jump, then a discontinuity",
        rust: (
            format!("tells a run of {}", original.jump_cycles()),
            "tells a run of 0",
        ),
        here: (
            format!("tells a largest run of {}", values[0]),
            "tells a largest run of 1",
        ),
    }
}

fn far_off() -> Difference {
    let mut state = [0; 15];
    face::new(&mut state, 48_000);
    let answer = face::on_cycle(&mut state, LIMIT, 0, 0, &mut [0]);
    let verdict = Tracker::new(48_000).on_cycle(LIMIT as usize, CycleOutcome::Unconfident);
    Difference {
        input: "an unconfident cycle with alignment 2^62",
        rust: (format!("says {verdict:?}"), "says Hold"),
        here: (refused(answer), "refuses with 5"),
    }
}
