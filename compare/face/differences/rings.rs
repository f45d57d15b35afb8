//! Inputs to the ring.

use super::told::{panics, refused, Difference};
use crate::face::ring as face;
use crate::ring::ReferenceRing;
use crate::rules::LIMIT;

const HALVES: [u32; 4] = [0.5_f32.to_bits(); 4];

pub fn all() -> Vec<Difference> {
    vec![no_capacity(), full(), place(), made()]
}

fn no_capacity() -> Difference {
    Difference {
        input: "a ring over a buffer of length 0",
        rust: (panics(|| ReferenceRing::new(0)), "panics"),
        here: (refused(face::new(&mut [0], &[])), "refuses with 2"),
    }
}

fn full() -> Difference {
    let mut ring = ReferenceRing::new(1);
    ring.set_next_abs(LIMIT);
    ring.push(&[1.0]);
    let mut cells = HALVES;
    let pushed = face::push(&mut [LIMIT], &mut cells, &[1]);
    Difference {
        input: "one sample to a ring that accepted 2^62",
        rust: (format!("counts {}", ring.next_abs() - LIMIT), "counts 1"),
        here: (refused(pushed), "refuses with 5"),
    }
}

fn place() -> Difference {
    let mut ring = ReferenceRing::new(4);
    ring.push(&[0.5; 6]);
    let mut values = [0];
    let answer = face::get(&[6], &HALVES, 5, &mut values);
    Difference {
        input: "index 5 of a ring of 4 after 6 samples",
        rust: (format!("gives {:?}", ring.get(5)), "gives Some(0.5)"),
        here: (
            format!("answers {answer}, place {}", values[0]),
            "answers 17, place 1",
        ),
    }
}

fn made() -> Difference {
    let answer = face::new(&mut [7], &HALVES);
    let held = ReferenceRing::new(4).samples()[1];
    Difference {
        input: "a new ring over a buffer of halves",
        rust: (format!("holds {held}"), "holds 0"),
        here: (
            format!("answers {answer}, holds {}", f32::from_bits(HALVES[1])),
            "answers 16, holds 0.5",
        ),
    }
}
