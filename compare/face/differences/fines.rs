//! Inputs to the fine stage.

use super::told::{panics, refused, Difference, ASSERTED};
use crate::delay::{DelayEstimator, WindowSupport};
use crate::face::fine as face;
use crate::fines::world::World;

pub fn all() -> Vec<Difference> {
    vec![counted(), waiting(), ungated(), run()]
}

fn counted() -> Difference {
    let mut w = World::new(9);
    w.correlation.all_mut()[3] = 1.0;
    w.set_word(8, u64::MAX);
    face::peak(w.state.lent_mut(), w.correlation.lent(), &mut [0; 4]);
    let mut original = DelayEstimator::new(1000, 9);
    original.correlation().copy_from_slice(w.correlation.all());
    original.set_counts(0, 0, u64::MAX);
    let went = panics(|| original.peak_rule());
    let (wraps, told) = match cfg!(debug_assertions) {
        true => (went, "panics"),
        false => (format!("counts {}", original.scans()), "counts 0"),
    };
    Difference {
        input: "one more peak after 2^64 - 1 scans",
        rust: (wraps, told),
        here: (
            format!("counts {}", w.word(8)),
            "counts 18446744073709551615",
        ),
    }
}

fn waiting() -> Difference {
    let mut w = World::new(9);
    let frame = w.word(2);
    w.set_word(4, frame);
    let mut original = DelayEstimator::new(1000, 9);
    for _ in 0..=frame {
        original.push_near(0.5);
    }
    let more = original.near_frame().len() as u64 - frame;
    let answer = face::push_near(w.state.lent_mut(), w.near.lent_mut(), 0.5);
    Difference {
        input: "a near sample to the fine stage while a full frame waits",
        rust: (format!("grows the frame by {more}"), "grows the frame by 1"),
        here: (refused(answer), "refuses with 6"),
    }
}

fn run() -> Difference {
    let mut w = World::new(9);
    let mut original = DelayEstimator::new(1000, 9);
    let samples = [0.5, f32::NAN];
    for sample in samples {
        original.push_near(sample);
    }
    let answer = face::push_near_run(w.state.lent_mut(), w.near.lent_mut(), &samples, &mut [0]);
    Difference {
        input: "0.5 and a NaN to the fine stage, there one by one and here in a run",
        rust: (format!("takes {}", original.near_frame().len()), "takes 2"),
        here: (format!("{}, takes {}", refused(answer), w.word(4)), "refuses with 4, takes 0"),
    }
}

fn ungated() -> Difference {
    let mut w = World::new(9);
    let far = w.far.all().to_vec();
    let (state, retained) = (w.state.lent_mut(), w.retained.lent_mut());
    let answer = face::gate(state, w.near.lent(), retained, &far, 0, 0);
    let gate = || DelayEstimator::new(1000, 9).observe(&far, WindowSupport::default());
    Difference {
        input: "the gate of a new fine state",
        rust: (panics(gate), ASSERTED),
        here: (refused(answer), "refuses with 7"),
    }
}
