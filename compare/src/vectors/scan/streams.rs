//! Scans at random: calls in any order, whole echoes sample by sample, and frames of made-up levels.

use super::script::{Script, Stored};
use crate::coarse::FrameAnswer;
use crate::random::Random;
use crate::signal::{Signal, UNSIGNED};

const RATES: [u32; 14] = [
    8000, 8499, 8500, 9499, 11025, 12000, 16000, 22050, 32000, 44100, 48000, 88200, 96000, 192000,
];
const CEILINGS: [u16; 12] = [1, 2, 7, 8, 9, 20, 31, 64, 250, 500, 1000, 4000];

fn rate(random: &mut Random) -> u32 {
    if random.once_in(3) {
        random.between(8000, 192_000) as u32
    } else {
        random.one_of(&RATES)
    }
}

fn ceiling(random: &mut Random) -> u16 {
    if random.once_in(4) {
        random.between(1, 4000) as u16
    } else {
        random.one_of(&CEILINGS)
    }
}

/// The same stretches, each sample's own sign and fraction anew, `louder` times twice as loud.
fn echo_of(random: &mut Random, far: Signal, louder: i32) -> Signal {
    let seed = random.one_of(&[far.seed, random_seed(far)]);
    let base = (far.base as i32 + louder) as u8;
    Signal { seed, base, ..far }
}

fn random_seed(far: Signal) -> u32 {
    far.seed.rotate_left(7) ^ 0x1234_5678
}

/// Calls in any order, runs cut anywhere.
pub fn pushes(random: &mut Random, stored: &mut Stored) {
    for _ in 0..50 {
        let rate = rate(random);
        let small = random.one_of(&[1, 5, 9, 20]);
        let mut script = Script::new(rate, small, stored);
        let hold = script.geometry().decimation as u16 * 7;
        let signal = Signal::speech(random, hold);
        let mut index = random.below(300);
        for _ in 0..30 {
            any_call(random, &mut script, signal, &mut index);
        }
    }
}

fn any_call(random: &mut Random, script: &mut Script, signal: Signal, index: &mut u64) {
    let geometry = script.geometry();
    let block = geometry.decimation as u64;
    let whole = block * geometry.frame as u64;
    let sizes = [
        0,
        1,
        block - 1,
        block,
        block + 1,
        3 * block,
        random.below(whole),
        whole,
    ];
    let count = random.one_of(&sizes).min(20_000) as usize;
    match random.below(40) {
        0 => script.rearm(),
        1 => script.discard_near(),
        2 => script.reset(),
        3 => *index = random.below(3 * whole),
        4 => *index = random.below(1 << 62) / block * block,
        5..=15 => {
            let place = script.scan.fields().far_pushed;
            script.far(signal, place, count);
        }
        _ => {
            let (taken, full) = script.near(signal, *index, *index, count.max(1));
            *index += taken as u64;
            if full {
                script.score();
            }
        }
    }
}

/// Far samples ahead, then near frames that repeat them later, over and over until something is found.
pub fn echoes(random: &mut Random, stored: &mut Stored) {
    for rate in [
        8000, 8500, 11025, 16000, 22050, 44100, 48000, 96000, 192000, 8000, 16000, 48000,
    ] {
        let ceiling = random.one_of(&[20, 40, 80, 500]);
        let mut script = Script::new(rate, ceiling, stored);
        let geometry = script.geometry();
        let block = geometry.decimation as u64;
        let frame = block * geometry.frame as u64;
        let far = Signal::speech(random, (block * 5) as u16);
        let near = echo_of(random, far, -3);
        let delay = random.below(geometry.span as u64 * block);
        let start = (geometry.span as u64 + random.below(20)) * block;
        script.far(far, 0, start as usize);
        for turn in 0..5 {
            let first = start + turn * frame;
            script.far(far, first, (frame - random.below(block * 40)) as usize);
            let missing = first + frame - script.scan.fields().far_pushed;
            let parts = random.between(1, 3);
            let mut taken = 0;
            while taken < frame {
                let count = (frame / parts + 1).min(frame - taken) as usize;
                let index = first + taken;
                let (more, full) = script.near(near, index - delay, index, count);
                taken += more as u64;
                if full {
                    script.score();
                }
            }
            script.far(far, first + frame - missing, missing as usize);
        }
        if random.once_in(2) {
            script.rearm();
        } else {
            script.discard_near();
        }
        script.far(far, start + 5 * frame, block as usize + 3);
    }
}

/// Frames over a made-up history, wrapped or not: echoes, other signals, flat and periodic ones, of any scale.
pub fn frames(random: &mut Random, stored: &mut Stored) {
    for _ in 0..130 {
        let rate = rate(random);
        let ceiling = ceiling(random);
        let mut script = Script::new(rate, ceiling, stored);
        let geometry = script.geometry();
        let length = geometry.envelope as u64;
        let far = levels(random, length as u32);
        let near = if random.once_in(3) {
            levels(random, length as u32)
        } else {
            echo_of(random, far, 0)
        };
        // A signal of the envelope's period: the level of bin b stands at place b.
        let blocks = match random.below(3) {
            0 => (geometry.span + geometry.frame) as u64 + random.below(3000),
            1 => length + random.below(3 * length),
            _ => random.below(1 << 53),
        };
        script.set_far(far, 0, blocks);
        let delay = random.below(geometry.span as u64 + 1);
        for _ in 0..random.between(4, 9) {
            if script.scan.finished() {
                script.rearm();
            }
            let kept = blocks.saturating_sub(length) + geometry.span as u64;
            let last = blocks.saturating_sub(geometry.frame as u64).max(kept);
            let first = random.between(kept, last) + random.below(geometry.frame as u64 / 4);
            script.set_near(near, first - delay, first);
            if let FrameAnswer::Uncovered = script.score() {
                break;
            }
        }
    }
}

/// Levels of one sort out of several; 10^-20 to 10^30 and a little beyond.
fn levels(random: &mut Random, length: u32) -> Signal {
    let base = random.one_of(&[
        60, 107, 117, 119, 120, 120, 120, 121, 124, 127, 140, 180, 227,
    ]);
    let sort = random.below(7);
    let (mask, spread, hold, period) = match sort {
        // Loud and soft stretches; each level for itself.
        0 | 1 => (UNSIGNED, 7, 5, length),
        2 => (UNSIGNED, 0, 1, length),
        // Powers of two, whose sums are exact: periodic, so that lags tie; with long flat stretches.
        3 => (0, 3, 1, random.between(2, 40) as u32),
        4 => (0, 3, random.between(200, 400) as u16, length),
        // Few fraction bits; below 0 as well, which only a made-up level is.
        5 => (0x0060_0000, 1, 2, length),
        _ => (0x8070_0000, 3, 3, length),
    };
    Signal {
        seed: random.word() as u32,
        mask,
        shape: random.word() as u32,
        hold,
        base,
        spread,
        period,
    }
}
