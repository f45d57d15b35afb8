//! Samples made by integer arithmetic alone, so that a suite repeats them from a few stored numbers.

use crate::random::Random;
use crate::record::Record;

/// Every bit of sign and fraction.
pub const SIGNED: u32 = 0x807f_ffff;
/// Every bit of the fraction.
pub const UNSIGNED: u32 = 0x007f_ffff;

/// All zeros.
pub const SILENCE: Signal = Signal {
    seed: 0,
    mask: 0,
    shape: 0,
    hold: 1,
    base: 0,
    spread: 0,
    period: 0,
};

/// A pattern that looks random, for a seed and a place. Every product fits 64 bits.
pub fn word(seed: u32, n: u64) -> u32 {
    let low = |x: u64| x & 0xffff_ffff;
    let mut x = low(seed as u64 + low(n) * 0x9e37_79b9);
    x ^= x >> 16;
    x = low(x * 0x045d_9f3b);
    x ^= x >> 16;
    x = low(x * 0x045d_9f3b);
    x ^= x >> 16;
    x as u32
}

/// A stream of finite samples or levels.
#[derive(Clone, Copy, Default)]
pub struct Signal {
    /// Sign and fraction of each sample come from this seed, as far as the mask lets them through.
    pub seed: u32,
    pub mask: u32,
    /// The exponent is `base` and up to `spread` (a mask) more, by this seed, the same for `hold` samples.
    pub shape: u32,
    pub hold: u16,
    pub base: u8,
    pub spread: u8,
    /// It repeats after so many samples; 0 for never.
    pub period: u32,
}

impl Signal {
    /// Samples like speech: loud and soft stretches of `hold` samples, 1 at the loudest.
    pub fn speech(random: &mut Random, hold: u16) -> Signal {
        Signal {
            seed: random.word() as u32,
            mask: SIGNED,
            shape: random.word() as u32,
            hold,
            base: 119,
            spread: 7,
            period: 0,
        }
    }

    pub fn bits(&self, place: u64) -> u32 {
        let n = match self.period {
            0 => place,
            period => place % period as u64,
        };
        let more = word(self.shape, n / self.hold as u64) & self.spread as u32;
        (word(self.seed, n) & self.mask & SIGNED) | (self.base as u32 + more) << 23
    }

    pub fn samples(&self, place: u64, count: usize) -> Vec<f32> {
        (place..place + count as u64)
            .map(|n| f32::from_bits(self.bits(n)))
            .collect()
    }

    /// 20 bytes.
    pub fn store(&self, out: &mut Record) {
        out.u32(self.seed).u32(self.mask).u32(self.shape);
        out.u32(self.period).u16(self.hold);
        out.u8(self.base).u8(self.spread);
    }
}
