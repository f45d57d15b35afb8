//! Legal states that calls alone would take long to reach: a full near frame, a far history long along, sums that are about to be decided on.

use crate::choices;
use crate::random::Random;
use crate::rules::LIMIT;
use crate::scans::world::World;

/// A level of the given sort: plain, in long flat stretches, huge, tiny, a staircase, constant, or of any size.
pub fn level(random: &mut Random, sort: u64, place: u64) -> f32 {
    match sort {
        0 => choices::level(random),
        1 if (place / 300) % 2 == 0 => 0.5,
        1 => choices::level(random),
        2 => choices::level(random) * 1e30,
        3 => choices::level(random) * random.one_of(&[1e-6, 1e-20]),
        4 => f32::from_bits(0x3f80_0000 + ((place % 7) as u32) * 0x0080_0000),
        5 => 0.25,
        _ => {
            let fraction = (random.word() >> 32) as u32 & 0x007f_ffff;
            f32::from_bits(fraction | ((100 + random.below(40)) as u32) << 23)
        }
    }
}

/// A far history of whole blocks or with one under way: young, wrapped a few times, or up to 2^62 samples long.
pub fn far(random: &mut Random, w: &mut World) {
    let bins = w.bins();
    let d = bins.decimation;
    let blocks = match random.below(4) {
        0 => bins.window() + random.below(3000),
        1 => bins.envelope() + random.below(3 * bins.envelope()),
        2 => LIMIT / d - random.below(3),
        _ => random.below(LIMIT / d),
    };
    let count = if random.once_in(2) {
        0
    } else {
        random.below(d)
    };
    let accepted = (blocks * d + count).min(LIMIT);
    w.set_word(8, accepted / d);
    w.set_word(9, (choices::level(random) as f64).to_bits());
    w.set_word(10, accepted % d);
    w.set_word(11, accepted);
    let sort = random.below(7);
    for (place, cell) in w.envelope.all_mut().iter_mut().enumerate() {
        *cell = level(random, sort, place as u64);
    }
}

/// A first bin whose frame has a window, now and then one at the ends of what is kept and written.
fn first_bin(random: &mut Random, w: &World) -> u64 {
    let bins = w.bins();
    let next = w.word(8);
    let kept = next.saturating_sub(bins.envelope()) + bins.span;
    let last = next.saturating_sub(bins.frame).max(kept);
    let ahead = bins.frame / 4;
    let first = match random.below(6) {
        0 => kept + random.below(3),
        1 => last + ahead + random.below(3),
        2 => last + random.below(ahead + 1),
        _ => random.between(kept, last),
    };
    let most = (LIMIT - 1) / bins.decimation;
    first.saturating_sub(random.below(2)).min(most)
}

/// A full near frame: an echo of the far history, with or without noise, or levels of its own.
pub fn near(random: &mut Random, w: &mut World) {
    let bins = w.bins();
    let first = first_bin(random, w);
    let delay = random.below(bins.span + 1);
    let (echo, noisy, sort) = (!random.once_in(5), random.once_in(2), random.below(7));
    for bin in 0..bins.frame {
        let played = (first + bin).saturating_sub(delay) % bins.envelope();
        let heard = w.envelope.all()[played as usize];
        w.levels.all_mut()[bin as usize] = match (echo, noisy) {
            (false, _) => level(random, sort, bin),
            (_, false) => heard,
            _ => heard + choices::level(random) * heard * 0.3,
        };
    }
    w.set_word(12, bins.frame);
    w.set_word(13, random.one_of(&[0, 1 << 63, 1.5_f64.to_bits()]));
    w.set_word(14, 0);
    w.set_word(15, first);
    set_last(w);
}

/// The last index as the frame under way has it.
pub fn set_last(w: &mut World) {
    let taken = w.word(12) * w.word(2) + w.word(14);
    w.set_word(24, w.word(15) * w.word(2) + taken - 1);
}

/// All but the last sample of a frame.
pub fn nearly_full(random: &mut Random, w: &mut World) {
    near(random, w);
    let bins = w.bins();
    w.set_word(12, bins.frame - 1);
    w.set_word(13, (choices::level(random) as f64).to_bits());
    w.set_word(14, bins.decimation - random.between(1, 2));
    set_last(w);
}

/// A region of any delay, whose correlation is mostly no plain number.
pub fn region(random: &mut Random, w: &mut World) {
    w.set_word(12, 0);
    w.set_word(14, 0);
    w.set_word(19, 1);
    w.set_word(20, choices::word(random, 4_800));
    w.set_word(21, choices::odd64(random));
}

/// Sums of up to three frames, with peaks anywhere, and a count of frames about to be the last.
pub fn sums(random: &mut Random, w: &mut World) {
    let banked = random.below(4);
    w.set_word(16, banked);
    w.set_word(
        17,
        random.one_of(&[banked, 40, 62, 63, 64, u32::MAX as u64 - 1, u32::MAX as u64]),
    );
    let scale = random.one_of(&[0.0, 0.3, 1.0, 4.0, 1e300]);
    for sum in w.lag_sums.all_mut() {
        *sum = (choices::level(random) as f64 - 0.4) * scale;
    }
    for _ in 0..random.below(3) {
        let at = random.below(w.lag_sums.all().len() as u64) as usize;
        w.lag_sums.all_mut()[at] = random.one_of(&[1.0, 2.5, 4.0, 1e3]);
    }
}
