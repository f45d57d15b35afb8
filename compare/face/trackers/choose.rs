//! The next call of a tracker: candidates at and beside the bands around the alignment and the delays that the state keeps.

use super::shape::{Call, Cycle};
use crate::choices;
use crate::random::Random;
use crate::rules::bands;

pub fn call(random: &mut Random, state: &[u64], alignment: u64) -> Call {
    match random.below(24) {
        0 => Call::New(match random.below(3) {
            0 => choices::word(random, state[0]) as u32,
            1 => random.one_of(&[7_999, 8_000, 192_000, 192_001]),
            _ => state[0] as u32,
        }),
        1 if random.once_in(3) => Call::Discontinuity,
        2 => Call::JumpCycles,
        3 => Call::Suspect,
        4 => Call::Quiescent,
        5 => Call::LongestRun,
        _ => Call::Cycle(cycle(random, state, alignment)),
    }
}

fn cycle(random: &mut Random, state: &[u64], alignment: u64) -> Cycle {
    let near = random.one_of(&[alignment, state[7], state[9]]);
    Cycle {
        delay: match random.below(30) {
            0 => choices::huge(random),
            1 => random.word() >> 2,
            _ => beside(random, state[0], near),
        },
        alignment: match random.below(40) {
            0 => choices::huge(random),
            1 => beside(random, state[0], alignment),
            _ => alignment,
        },
        kind: match random.below(60) {
            0 => random.one_of(&[3, 4, 255, 256, u32::MAX, 1 << 31]),
            1..=14 => 0,
            15..=22 => 2,
            _ => 1,
        },
    }
}

/// At a distance from another delay that lies at, or just beside, one of the bands.
fn beside(random: &mut Random, rate: u64, other: u64) -> u64 {
    let bands = bands(rate.clamp(8_000, 192_000));
    let distance = (random.one_of(&bands) + random.below(3)).wrapping_sub(1);
    match random.below(4) {
        0 => other.wrapping_add(distance),
        1 => other.saturating_sub(distance),
        2 => other,
        _ => other.wrapping_add(random.below(400)).saturating_sub(200),
    }
}
