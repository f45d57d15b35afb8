//! Square root and narrowing beside the processor's own.

use crate::bench::times::{nanoseconds, Times};
use crate::face;
use crate::random::Random;
use std::hint::black_box;

const COUNT: usize = 4_096;

/// Positive numbers of middling size.
fn patterns() -> Vec<u64> {
    let mut random = Random::new(1);
    (0..COUNT)
        .map(|_| (1023 - 20 + random.below(40)) << 52 | random.word() >> 12)
        .collect()
}

fn each<T>(patterns: &[u64], work: impl Fn(u64) -> T) -> f64 {
    nanoseconds(|| {
        for bits in patterns {
            black_box(work(black_box(*bits)));
        }
    })
}

pub fn root() {
    let patterns = patterns();
    let times = Times::take(
        300,
        || each(&patterns, face::square_root),
        || each(&patterns, |bits| f64::from_bits(bits).sqrt()),
    );
    times.row("square root by itself, beside the hardware's", COUNT);
}

/// As many roots as a counted frame has at 48,000 / 500, in one list.
pub fn roots() {
    const LIST: usize = 501;
    let patterns = patterns();
    let times = Times::take(
        300,
        || {
            let mut list = patterns[..LIST].to_vec();
            nanoseconds(|| face::square_roots(black_box(&mut list)))
        },
        || each(&patterns[..LIST], |bits| f64::from_bits(bits).sqrt()),
    );
    times.row("square root in a list of 501, beside the hardware's", LIST);
}

pub fn narrowing() {
    let patterns = patterns();
    let times = Times::take(
        300,
        || each(&patterns, face::narrow),
        || each(&patterns, |bits| f64::from_bits(bits) as f32),
    );
    times.row("narrowing, beside the hardware's", COUNT);
}
