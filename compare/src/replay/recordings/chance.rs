//! Recordings at random.

use super::*;
use crate::replay::{EVENT_LEN, HEADER_LEN, LIMIT};
use crate::signal::UNSIGNED;

const RATES: [u32; 12] = [
    8000, 8499, 8500, 11_025, 16_000, 22_050, 32_000, 44_100, 48_000, 88_200, 96_000, 192_000,
];

pub fn cycles_alone(random: &mut Random, turn: usize) -> Recording {
    let rate = match RATES.get(turn % 16) {
        Some(&rate) => rate,
        None => random.between(8000, 192_000) as u32,
    };
    let ceiling = random.between(1, 4000) as u32;
    let mut maker = Maker::new(rate, ceiling);
    let count = random.between(5, 60);
    cycles(random, &mut maker, count);
    maker.recording()
}

/// Cycles in runs of one sort, candidates on and beside the bands.
pub fn cycles(random: &mut Random, maker: &mut Maker, count: u64) {
    let samples = |ms: u64| (ms * maker.rate as u64 / 1000).max(1);
    let distances = [
        0,
        samples(4),
        samples(48),
        samples(24),
        samples(8),
        samples(100),
        samples(100),
    ];
    let mut alignment = random.one_of(&[0, 1000, 4800, 100_000, u32::MAX as u64]);
    let mut delay = alignment;
    let mut kind = INTERIOR;
    for _ in 0..count {
        if random.once_in(6) {
            kind = random.one_of(&[UNCONFIDENT, INTERIOR, INTERIOR, INTERIOR, EDGE]);
        }
        if random.once_in(9) {
            alignment = delay.min(u32::MAX as u64);
        }
        let distance = random.one_of(&distances) + random.below(3);
        let from = if random.once_in(2) { alignment } else { delay };
        delay = if random.once_in(2) {
            from + distance.max(1) - 1
        } else {
            from.saturating_sub(distance.max(1) - 1)
        };
        match kind {
            _ if random.once_in(20) => maker.plain(DISCONTINUITY),
            _ if random.once_in(30) => {
                maker.event(random.one_of(&[INTERIOR, EDGE]), 7, LIMIT + random.below(5))
            }
            UNCONFIDENT => maker.plain(UNCONFIDENT),
            _ => maker.event(kind, alignment as u32, delay),
        }
    }
}

/// Events of every kind, samples of every sort in runs of up to `most`, and now and then some damage.
pub fn at_random(random: &mut Random, most: u64) -> Recording {
    let rate = random.one_of(&[8000, 8000, 8001, 8499, 8500, 9499, 10_000, 11_025]);
    let ceiling = random.one_of(&[1, 2, 8, 9, 20, 40]);
    let mut scene = Scene::new(random, rate, ceiling);
    if random.once_in(3) {
        scene.far.mask = UNSIGNED & 0x0070_0000;
        scene.far.period = 8 * random.between(1, 50) as u32;
    }
    if most > 1000 && !random.once_in(6) {
        scene.lay(scene.span + scene.frame + 400);
    }
    let delay = random.below(scene.span * scene.block + 1);
    for _ in 0..random.between(4, 24) {
        any_event(random, &mut scene, most, delay);
    }
    let mut recording = scene.maker.recording();
    damage(random, &mut recording);
    recording
}

fn any_event(random: &mut Random, scene: &mut Scene, most: u64, delay: u64) {
    match random.below(24) {
        0 => scene.maker.plain(REARM),
        1 => scene.maker.plain(DISCARD),
        2 | 3 => {
            let count = random.between(1, 9);
            cycles(random, &mut scene.maker, count);
        }
        4 => {
            let place = random.below(5000);
            let samples = patterns(scene.far, place, random.between(1, most));
            scene.maker.far_bits(&damaged(random, samples));
        }
        5 => {
            let first = random.word() >> random.below(64);
            scene.maker.near_bits(first, &[0x3f80_0000; 5]);
        }
        _ => {
            // Where a frame begins decides alone, so most runs begin where the window is covered.
            let bin = scene.span - random.below(2) + random.below(30);
            let first = bin * scene.block + random.below(2) * random.below(9);
            let samples = patterns(scene.far, first - delay.min(first), random.between(1, most));
            scene.maker.near_bits(first, &damaged(random, samples));
        }
    }
}

/// Once in a while a sample that is not finite.
fn damaged(random: &mut Random, mut patterns: Vec<u32>) -> Vec<u32> {
    if random.once_in(12) {
        let at = random.below(patterns.len() as u64) as usize;
        patterns[at] = random.one_of(&[NAN, INFINITY, 0x7f80_0000, 0x7f80_0001]);
    }
    patterns
}

/// Now and then a byte of the events changed, or an input cut.
fn damage(random: &mut Random, recording: &mut Recording) {
    match random.below(12) {
        0 => {
            let at = random.between(HEADER_LEN as u64, recording.events.len() as u64 - 1) as usize;
            recording.events[at] = random.one_of(&[0, 1, 2, 9, 255]);
        }
        1 => recording
            .events
            .truncate(recording.events.len() - random.between(1, EVENT_LEN as u64) as usize),
        2 => recording.far.truncate(recording.far.len() / 2),
        3 => recording.near.truncate(recording.near.len() / 2),
        4 => recording.events[16] ^= 1,
        _ => {}
    }
}
