//! Inputs to the panel.

use super::told::{refused, Difference};
use crate::coarse_panel;
use crate::panels::PANEL;
use crate::scans::beside;
use crate::scans::calls;
use crate::scans::shape::Call;
use crate::scans::world::World;

pub fn all() -> Vec<Difference> {
    vec![twelve(), late()]
}

fn twelve() -> Difference {
    let (rate, ceiling) = (12_000, 8);
    let bin = coarse_panel::CoarseScan::new(rate, ceiling as u16).bin_samples();
    let mut w = World::of(&PANEL, 8_000, 8);
    let answer = calls::face(&mut w, &Call::New { rate, ceiling });
    Difference {
        input: "a panel for 12,000 / 8",
        rust: (format!("has bins of {bin}"), "has bins of 12"),
        here: (refused(answer), "refuses with 1"),
    }
}

/// A full frame of bins 8 to 263, after 777 bins.
fn waits(w: &mut World) {
    w.set_word(8, 777);
    w.set_word(11, 777 * 8);
    w.set_word(12, 256);
    w.set_word(15, 8);
    w.set_word(24, 264 * 8 - 1);
}

fn late() -> Difference {
    let (mut panel, mut full) = (World::of(&PANEL, 8_000, 8), World::new(8_000, 8));
    waits(&mut panel);
    waits(&mut full);
    let answer = beside::original(&full).scored();
    Difference {
        input: "a silent frame scored when the far side is 513 bins past its end",
        rust: (format!("says {answer:?}"), "says Quiet"),
        here: (refused(calls::observe(&mut panel)), "answers 16"),
    }
}
