//! Inputs to the pair. The original has scans only, which have no number.

use super::told::{refused, Difference};
use crate::face::pair as face;
use crate::pairs::world::World;

pub fn all() -> Vec<Difference> {
    vec![third(), both()]
}

fn third() -> Difference {
    Difference {
        input: "a report of channel 2, lent no state",
        rust: ("has no channels".to_string(), "has no channels"),
        here: (refused(face::finished(&[], 2)), "refuses with 11"),
    }
}

fn both() -> Difference {
    let mut w = World::new(48_000, 1);
    w.state.all_mut()[36] = 2;
    let answer = face::reset(
        w.state.lent_mut(),
        w.envelope.lent_mut(),
        w.first_lag_sums.lent_mut(),
        w.second_lag_sums.lent_mut(),
    );
    Difference {
        input: "a reset of a pair whose second channel is broken",
        rust: ("resets one".to_string(), "resets one"),
        here: (refused(answer), "refuses with 3"),
    }
}
