//! Values that are worth trying.

use crate::random::Random;
use crate::rules::LIMIT;

const NUMBERS: [u64; 24] = [
    0,
    1,
    2,
    3,
    4,
    5,
    255,
    256,
    (1 << 32) - 1,
    1 << 32,
    (1 << 32) + 1,
    LIMIT - 1,
    LIMIT,
    LIMIT + 1,
    1 << 63,
    (1 << 63) - 1,
    u64::MAX,
    u64::MAX - 1,
    0x7ff0_0000_0000_0000,
    0xfff0_0000_0000_0000,
    0x7ff8_0000_0000_0000,
    0x7ff0_0000_0000_0001,
    0xfff8_0000_dead_beef,
    0x7fef_ffff_ffff_ffff,
];

/// A word that is set in place of `own`.
pub fn word(random: &mut Random, own: u64) -> u64 {
    match random.below(10) {
        0 => own.wrapping_add(1),
        1 => own.wrapping_sub(1),
        2 => random.word(),
        3 => 1 << random.below(64),
        4 => odd32(random) as u64,
        5 => odd64(random),
        _ => random.one_of(&NUMBERS),
    }
}

/// An index or a delay at and around 2^62, or larger.
pub fn huge(random: &mut Random) -> u64 {
    match random.below(4) {
        0 => u64::MAX - random.below(3),
        1 => LIMIT + random.word() % (u64::MAX - LIMIT),
        _ => LIMIT - 3 + random.below(6),
    }
}

/// A pattern of an f32 that is seldom met.
pub fn odd32(random: &mut Random) -> u32 {
    odd(random, 32, 23) as u32
}

/// A pattern of an f64 that is seldom met.
pub fn odd64(random: &mut Random) -> u64 {
    odd(random, 64, 52)
}

/// Of either sign: NaNs, quiet and signalling, with a payload and without; infinities, subnormals, zeros, the smallest normal and the
/// largest number; or any pattern at all. `width` and `fraction` are in bits.
fn odd(random: &mut Random, width: u64, fraction: u64) -> u64 {
    let sign = 1 << (width - 1);
    let (quiet, smallest) = (1 << (fraction - 1), 1 << fraction);
    let infinity = sign - smallest;
    let payload = random.between(1, quiet - 1);
    let magnitude = match random.below(10) {
        0 => infinity | quiet,
        1 | 2 => infinity | quiet | payload,
        3 => infinity | 1,
        4 | 5 => infinity | payload,
        6 => infinity,
        7 => random.one_of(&[1, payload, quiet, smallest - 1]),
        8 => random.one_of(&[0, smallest, infinity - 1]),
        _ => random.word() & (sign - 1),
    };
    (random.below(2) * sign) | magnitude
}

/// A level between 0.001 and 1, small ones more often.
pub fn level(random: &mut Random) -> f32 {
    let x = (random.word() >> 40) as f32 / (1u64 << 24) as f32;
    0.001 + x * x
}

/// A sample between -0.4 and 0.6.
pub fn sample(random: &mut Random) -> f32 {
    level(random) - 0.4
}

/// A length beside the one that is due: one short, one long, none, or any shorter one.
pub fn wrong_length(random: &mut Random, due: usize) -> usize {
    match random.below(4) {
        0 if due > 0 => due - 1,
        1 if due > 0 => 0,
        2 if due > 0 => random.below(due as u64) as usize,
        _ => due + 1,
    }
}
