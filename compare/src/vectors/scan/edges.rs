//! Frames that lie exactly on a limit, and one step of the last place beside it.

use super::script::{Script, Stored};
use crate::coarse::FrameAnswer;
use crate::random::Random;
use crate::signal::{Signal, SILENCE, UNSIGNED};

/// The scope paper's floors, as the original writes them.
const MEAN_FLOOR: f64 = 3.162_277_7e-4;
const ENERGY_FLOOR: f64 = 1e-12;

const SETTINGS: [(u32, u16); 10] = [
    (8000, 500),
    (48000, 500),
    (8500, 500),
    (8000, 64),
    (11025, 100),
    (16000, 20),
    (22050, 250),
    (44100, 45),
    (96000, 1000),
    (192000, 4000),
];

pub fn all(random: &mut Random, stored: &mut Stored) {
    for (rate, ceiling) in SETTINGS {
        coverage(random, rate, ceiling, stored);
        decisions(random, rate, ceiling, stored);
        mean_at_the_floor(random, rate, ceiling, stored);
        near_energy_at_the_floor(random, rate, ceiling, stored);
        segment_energy_at_the_floor(random, rate, ceiling, stored);
    }
    exhaustion(random, stored);
}

/// Levels between 0.5 and 2 with all fraction bits.
fn lively(random: &mut Random) -> Signal {
    Signal {
        base: 126,
        spread: 1,
        mask: UNSIGNED,
        ..Signal::speech(random, 3)
    }
}

/// First and last windows that are covered, and tails of a quarter frame and one more.
fn coverage(random: &mut Random, rate: u32, ceiling: u16, stored: &mut Stored) {
    let mut script = Script::new(rate, ceiling, stored);
    let geometry = script.geometry();
    let (span, frame, length) = (
        geometry.span as u64,
        geometry.frame as u64,
        geometry.envelope as u64,
    );
    let signal = lively(random);
    let far_off = random.below((1 << 62) / geometry.decimation as u64 - 2 * length) + span;
    let tries = [
        (span + 3, span + frame + 3),
        (span, span + frame),
        (span - 1, span + frame),
        (0, span + frame),
        (span + 9, span + 9 + frame - frame / 4),
        (span + 9, span + 9 + frame - frame / 4 - 1),
        (far_off, far_off - span + length),
        (far_off, far_off - span + length + 1),
        (far_off, far_off + frame - frame / 4),
        (far_off, far_off + frame - frame / 4 - 1),
        (far_off, far_off + frame),
        (far_off, 0),
    ];
    for (first_bin, blocks) in tries {
        script.set_far(signal, 0, blocks);
        script.set_near(signal, random.below(length), first_bin);
        script.score();
        script.discard_near();
    }
}

/// Fourth frames whose averages are chosen: each lag named gets its sum, every other one stays far below 0.
fn decisions(random: &mut Random, rate: u32, ceiling: u16, stored: &mut Stored) {
    let mut script = Script::new(rate, ceiling, stored);
    let geometry = script.geometry();
    let (span, guard) = (geometry.span, geometry.peak_guard);
    script.set_far(lively(random), 0, (span + geometry.frame + 50) as u64);
    // The farthest lag that passes the ceiling test, and the first that does not.
    let passes = geometry.ceiling_guard;
    let fails = passes - 1;
    let lag = passes + random.below((span - passes) as u64) as usize;
    let tries: [&[(usize, f64)]; 22] = [
        &[(lag, 1.0)],
        &[(lag, 1.0_f64.next_down())],
        &[(lag, 1.0_f64.next_up())],
        &[(lag, 3.0)],
        &[],
        &[(passes, 2.0)],
        &[(fails, 2.0)],
        &[(fails, 1.0_f64.next_down())],
        &[(0, 4.0)],
        &[(span, 2.0)],
        // The shorter delay wins a tie.
        &[(lag, 2.0), (lag - 1, 2.0)],
        &[(passes, 2.0), (fails, 2.0)],
        &[(passes, 2.0), (fails, 2.0_f64.next_up())],
        // A second peak within and behind the guard, above, at and below two thirds.
        &[(lag, 3.0), (lag + guard, 2.9)],
        &[(lag, 3.0), (lag + guard + 1, 2.0)],
        &[(lag, 3.0), (lag + guard + 1, 2.0_f64.next_up())],
        &[(lag, 3.0), (lag.wrapping_sub(guard), 2.9)],
        &[(lag, 3.0), (lag.wrapping_sub(guard + 1), 2.0)],
        &[(lag, 3.0), (lag.wrapping_sub(guard + 1), 2.0_f64.next_up())],
        &[(lag, 3.0), (span, 3.0), (0, 3.0)],
        // The ceiling is asked before a second peak.
        &[(fails, 3.0), (span, 2.9)],
        &[(lag, 1.0), (span, 0.0), (0, -0.0)],
    ];
    for sums in tries {
        let flag = random.once_in(2);
        let frames = random.one_of(&[3, 62, 63, 64, u32::MAX - 1, u32::MAX]);
        chosen(random, &mut script, sums, frames, flag);
    }
}

fn chosen(
    random: &mut Random,
    script: &mut Script,
    sums: &[(usize, f64)],
    frames: u32,
    flag: bool,
) {
    let geometry = script.geometry();
    let first = (geometry.span + 5) as u64;
    script.rearm();
    script.set_near(lively(random), random.below(1 << 30), first);
    script.set_counts(3, frames, flag);
    script.set_lag_sums(-1000.0);
    let Some(scores) = script.scan.foreseen_scores() else {
        panic!("a lively frame counts");
    };
    for &(lag, sum) in sums.iter().filter(|(lag, _)| *lag <= geometry.span) {
        if let Some(before) = addend(scores[lag], sum) {
            script.set_lag_sum(lag, before);
        }
    }
    script.score();
}

/// The number that gives exactly `sum` with `score`, if there is one.
fn addend(score: f64, sum: f64) -> Option<f64> {
    let near = sum - score;
    [near, near.next_up(), near.next_down()]
        .into_iter()
        .find(|before| before + score == sum)
}

/// Few levels that sum up to `sum` exactly, the first ones first.
fn parts(sum: f64) -> Vec<f32> {
    let mut left = sum;
    let mut parts = Vec::new();
    while left > 0.0 {
        let part = down_to_f32(left);
        parts.push(part);
        left -= part as f64;
    }
    parts
}

fn down_to_f32(value: f64) -> f32 {
    let near = value as f32;
    if near as f64 > value {
        near.next_down()
    } else {
        near
    }
}

/// A window whose mean is the floor, and one whose sum is one step more.
fn mean_at_the_floor(random: &mut Random, rate: u32, ceiling: u16, stored: &mut Stored) {
    let mut script = Script::new(rate, ceiling, stored);
    let geometry = script.geometry();
    let length = (geometry.span + geometry.frame) as f64;
    let mut sum = MEAN_FLOOR * length;
    while sum.next_up() / length <= MEAN_FLOOR {
        sum = sum.next_up();
    }
    while sum / length > MEAN_FLOOR {
        sum = sum.next_down();
    }
    let first = geometry.span as u64 + 2;
    for sum in [sum.next_down(), sum, sum.next_up()] {
        script.set_far(SILENCE, 0, first + geometry.frame as u64);
        for (step, part) in parts(sum).into_iter().enumerate() {
            script.set_far_level(2 + 7 * step as u64, part);
        }
        script.set_near(lively(random), 0, first);
        script.score();
    }
}

/// Numbers whose sum is 0 at the end and whose squares, added in order, come to `energy` exactly.
fn balanced(energy: f64) -> Vec<f32> {
    let mut sum = 0.0_f64;
    let mut numbers = Vec::new();
    while sum < energy {
        let left = energy - sum;
        let half = down_to_f32((left / 2.0).sqrt());
        if sum + half as f64 * half as f64 > sum {
            numbers.extend([half, -half]);
        } else {
            // One step of the last place is left: two squares too small to count, and one that rounds up.
            let small = down_to_f32((left * 0.15).sqrt());
            numbers.extend([small, small, -2.0 * small]);
        }
        sum = numbers
            .iter()
            .fold(0.0, |sum, &x| sum + x as f64 * x as f64);
    }
    assert_eq!(sum, energy);
    numbers
}

/// Near levels whose mean is 0 and whose energy is the floor, and one step beside it.
fn near_energy_at_the_floor(random: &mut Random, rate: u32, ceiling: u16, stored: &mut Stored) {
    let mut script = Script::new(rate, ceiling, stored);
    let geometry = script.geometry();
    let first = geometry.span as u64;
    script.set_far(lively(random), 0, first + geometry.frame as u64);
    for energy in [
        ENERGY_FLOOR.next_down(),
        ENERGY_FLOOR,
        ENERGY_FLOOR.next_up(),
    ] {
        script.set_near(SILENCE, 0, first);
        for (bin, level) in balanced(energy).into_iter().enumerate() {
            script.set_near_level(bin, level);
        }
        script.score();
    }
}

/// Segments whose sum is 0 and whose energy is the floor, and one step beside it, before a loud last bin.
fn segment_energy_at_the_floor(random: &mut Random, rate: u32, ceiling: u16, stored: &mut Stored) {
    let mut script = Script::new(rate, ceiling, stored);
    let geometry = script.geometry();
    let first = geometry.span as u64;
    let end = first + geometry.frame as u64;
    for energy in [
        ENERGY_FLOOR.next_down(),
        ENERGY_FLOOR,
        ENERGY_FLOOR.next_up(),
    ] {
        script.set_far(SILENCE, 0, end);
        script.set_far_level(end - 1, end as f32);
        for (step, level) in balanced(energy).into_iter().enumerate() {
            script.set_far_level((geometry.frame / 2 + step) as u64, level);
        }
        script.set_near(lively(random), 0, first);
        script.score();
    }
}

/// 64 frames that find nothing: whole fours, and with a discard in between so that the last one stands mid-four.
fn exhaustion(random: &mut Random, stored: &mut Stored) {
    for discarded in [None, Some(1), Some(2), Some(3)] {
        let mut script = Script::new(8000, 20, stored);
        let geometry = script.geometry();
        let first = geometry.span as u64;
        script.set_far(lively(random), 0, first + geometry.frame as u64);
        while !script.scan.finished() {
            script.set_near(lively(random), random.below(1 << 30), first);
            if let FrameAnswer::Region(_) = script.score() {
                script.rearm();
            }
            let frames = script.scan.frames();
            if discarded.is_some_and(|after| frames == 40 + after) {
                script.discard_near();
            }
        }
        // Nothing reaches a finished scan; quiet and flat frames count for nothing after the rearm.
        script.near(lively(random), 0, 8, 20);
        script.rearm();
        script.set_near(SILENCE, 0, first);
        script.score();
    }
}
