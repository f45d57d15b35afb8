//! The next call of the fine stage.

use super::shape::{Call, REPORTS};
use super::world::World;
use crate::choices;
use crate::lent::Lent;
use crate::random::Random;
use crate::rules::LIMIT;

/// Some span: small mostly, so that the original's transform takes little time.
pub fn span(random: &mut Random) -> u32 {
    match random.below(40) {
        0 => random.between(129, 1200) as u32,
        1..=10 => random.one_of(&[1, 2, 9, 39, 64, 127, 128]),
        _ => random.between(1, 128) as u32,
    }
}

/// Now and then a full near frame, a far window or a correlation, loud or at the edge of silence.
pub fn travel(random: &mut Random, w: &mut World) {
    match random.below(24) {
        0..=1 => {
            sound(random, w.near.all_mut());
            let frame = w.word(2);
            w.set_word(4, frame - random.below(2));
        }
        2 => sound(random, w.far.all_mut()),
        3 => {
            sound(random, w.retained.all_mut());
            w.set_word(5, 1);
        }
        4..=5 => peaked(random, w),
        6 => w.set_word(6, random.one_of(&[0, 1, 2, 77])),
        7 if random.once_in(4) => w.set_word(9, choices::odd64(random)),
        _ => {}
    }
}

pub fn call(random: &mut Random, w: &mut World) -> Call {
    let frame = w.word(2);
    if w.word(4) == frame && random.once_in(2) {
        return gate(random, frame);
    }
    match random.below(60) {
        0 if random.once_in(3) => Call::New(match random.below(3) {
            0 => w.word(0) as u32,
            _ => choices::word(random, w.word(0)) as u32,
        }),
        1 if random.once_in(3) => Call::Reset,
        2 => Call::Restart,
        3..=4 => Call::Relocate(match random.below(4) {
            0 => choices::huge(random),
            1 => choices::word(random, 0),
            _ => random.below(100_000),
        }),
        5..=14 => run(random, w),
        15..=24 => Call::PushNear(match random.once_in(12) {
            true => f32::from_bits(choices::odd32(random)),
            false => choices::sample(random),
        }),
        25..=27 => gate(random, frame),
        28..=32 => Call::Rescan {
            head: head(random),
            tail: tail(random, frame),
        },
        33..=42 => Call::Peak,
        _ => random.one_of(&REPORTS),
    }
}

/// Runs of none, of one, of about sixteen, up to a frame and beyond it. Now and then a sample is not finite.
fn run(random: &mut Random, w: &mut World) -> Call {
    let left = w.word(2).saturating_sub(w.word(4)).min(2000);
    let count = match random.below(8) {
        0 => 0,
        1 => 1,
        2..=4 => random.between(14, 18),
        5 => left,
        6 => left + random.below(20),
        _ => random.below(left + 2),
    };
    let mut samples: Vec<f32> = (0..count).map(|_| choices::sample(random)).collect();
    if count > 0 && random.once_in(5) {
        let at = random.below(count) as usize;
        samples[at] = f32::from_bits(choices::odd32(random));
    }
    w.samples = Lent::of(&samples);
    Call::PushNearRun
}

fn gate(random: &mut Random, frame: u64) -> Call {
    Call::Gate {
        head: head(random),
        tail: tail(random, frame),
    }
}

/// How many samples are missing at the head of a far window.
fn head(random: &mut Random) -> u64 {
    match random.below(12) {
        0 => 1,
        1 => choices::word(random, 1),
        _ => 0,
    }
}

/// How many are missing at its tail: a quarter of the frame is the most that is not skipped.
fn tail(random: &mut Random, frame: u64) -> u64 {
    match random.below(8) {
        0 => frame / 4 + random.below(3),
        1 => choices::word(random, frame / 4),
        _ => random.below(frame / 4 + 1),
    }
}

/// Noise of some loudness; or all but silent, with one sample whose square is near the floor of 1e-8.
fn sound(random: &mut Random, samples: &mut [f32]) {
    if random.once_in(4) {
        samples.fill(0.0);
        let at = random.below(samples.len() as u64) as usize;
        samples[at] = f32::from_bits(1e-4_f32.to_bits() - 2 + random.below(5) as u32);
        return;
    }
    let loudness = random.one_of(&[1.0, 1.0, 1.0, 1e-3, 1.6e-5, 1e-5, 1e30, 0.0]);
    for sample in samples {
        *sample = choices::sample(random) * loudness;
    }
}

/// A floor with one or two equal peaks around the height that makes a candidate, or nothing at all.
fn peaked(random: &mut Random, w: &mut World) {
    let floor = random.one_of(&[0.0, 0.0, 0.01, 0.1, 1.0, 1e-30]);
    let entries = w.correlation.all_mut();
    for entry in entries.iter_mut() {
        *entry = match floor == 0.0 {
            true => 0.0,
            false => choices::sample(random) * floor,
        };
    }
    let height = random.one_of(&[1.0, -1.0, 1.0, 0.3, 3e38]);
    for _ in 0..random.below(3) {
        let at = random.below(entries.len() as u64) as usize;
        entries[at] = height;
    }
    if random.once_in(3) {
        w.set_word(3, random.one_of(&[0, 1, 15, 16, 17, 100, LIMIT - 1]));
    }
}
