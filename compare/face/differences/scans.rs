//! Inputs to the scan.

use super::told::{panics, refused, Difference, ASSERTED};
use crate::coarse::CoarseScan;
use crate::face::scan as face;
use crate::scans::beside;
use crate::scans::calls;
use crate::scans::shape::Call;
use crate::scans::teleport;
use crate::scans::world::World;

pub fn all() -> Vec<Difference> {
    vec![
        no_numbers(),
        one_short(),
        waiting(),
        hole(),
        unscored(),
        ignored(),
        narrowed(),
    ]
}

fn no_numbers() -> Difference {
    let samples = [f32::NAN; 48];
    let mut original = CoarseScan::new(48_000, 1);
    original.push_far(&samples);
    let level = original.levels()[0][0];
    let mut w = World::new(48_000, 1);
    let answer = face::push_far(w.state.lent_mut(), w.envelope.lent_mut(), &samples);
    Difference {
        input: "a block of far samples that are no numbers",
        rust: (format!("stores the level {level}"), "stores the level NaN"),
        here: (refused(answer), "refuses with 4"),
    }
}

fn one_short() -> Difference {
    let mut w = World::new(48_000, 1);
    let envelope = w.envelope.lent_mut();
    let short = envelope.len() - 1;
    let answer = face::push_far(w.state.lent_mut(), &mut envelope[..short], &[0.5]);
    Difference {
        input: "a far envelope one bin short",
        rust: ("has its own".to_string(), "has its own"),
        here: (refused(answer), "refuses with 2"),
    }
}

fn near(w: &mut World, sample: f32, index: u64) -> String {
    refused(calls::face(w, &Call::PushNear { sample, index }))
}

fn waiting() -> Difference {
    let mut w = World::new(48_000, 1);
    w.set_word(12, w.bins().frame);
    teleport::set_last(&mut w);
    let mut original = beside::original(&w);
    original.push_near(0.5, 0);
    let counted = original.fields().near_count;
    Difference {
        input: "a near sample while a full frame waits",
        rust: (format!("counts {counted} more"), "counts 1 more"),
        here: (near(&mut w, 0.5, 0), "refuses with 6"),
    }
}

/// A jump inside a frame: the two samples before it are gone, and the third begins a frame.
fn hole() -> Difference {
    let mut w = World::new(48_000, 1);
    let mut original = beside::original(&w);
    for index in [0, 1, 48] {
        original.push_near(0.5, index);
        calls::face(&mut w, &Call::PushNear { sample: 0.5, index });
    }
    let counted = original.fields().near_count;
    Difference {
        input: "near samples 0, 1 and then 48",
        rust: (format!("has {counted} in one block"), "has 3 in one block"),
        here: (format!("has {} in it", w.word(14)), "has 1 in it"),
    }
}

fn unscored() -> Difference {
    let mut w = World::new(48_000, 1);
    Difference {
        input: "a new scan's frame is to be scored",
        rust: (panics(|| CoarseScan::new(48_000, 1).observe()), ASSERTED),
        here: (refused(calls::observe(&mut w)), "refuses with 7"),
    }
}

fn ignored() -> Difference {
    let mut w = World::new(48_000, 1);
    w.set_word(23, 1);
    let full = beside::original(&w).push_near(f32::NAN, u64::MAX);
    Difference {
        input: "a sample that is no number to a finished scan",
        rust: (format!("says {full}"), "says false"),
        here: (near(&mut w, f32::NAN, u64::MAX), "answers 16"),
    }
}

fn narrowed() -> Difference {
    let mut w = World::new(48_000, 1);
    w.set_word(19, 1);
    w.set_word(21, 0xfff8_1234_5678_9abc);
    let level = beside::original(&w).correlation();
    let mut values = [0];
    face::correlation(w.state.lent(), &mut values);
    Difference {
        input: "the level of a region whose correlation is a NaN with a payload",
        rust: (format!("gives {level}"), "gives NaN"),
        here: (format!("gives {:#x}", values[0]), "gives 0x7fc00000"),
    }
}
