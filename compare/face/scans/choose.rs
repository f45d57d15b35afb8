//! The next call of a scan.

use super::profile::Profile;
use super::shape::Call;
use super::teleport;
use super::world::World;
use crate::choices;
use crate::lent::Lent;
use crate::random::Random;

/// A new scan of some rate and ceiling.
pub fn world(random: &mut Random, profile: &'static Profile) -> World {
    let (rate, ceiling) = (profile.setting)(random);
    let mut w = World::of(profile, rate, ceiling);
    if !random.once_in(4) {
        teleport::far(random, &mut w);
    }
    w
}

/// Now and then a legal state that calls alone would take long to reach. Says whether it is one.
pub fn travel(random: &mut Random, w: &mut World) -> bool {
    match random.below(64) {
        0 => teleport::sums(random, w),
        1..=5 if !w.finished() => teleport::near(random, w),
        6 if !w.finished() => teleport::nearly_full(random, w),
        7 if random.once_in(40) => teleport::far(random, w),
        8 if random.once_in(4) => w.set_word(18, choices::odd32(random) as u64),
        9 if random.once_in(4) => teleport::region(random, w),
        _ => return false,
    }
    true
}

/// `index` is what the next near sample has if nothing is skipped.
pub fn call(random: &mut Random, w: &mut World, index: &mut u64) -> Call {
    let full = w.word(12) == w.bins().frame;
    if full && random.once_in(2) {
        return Call::Observe;
    }
    if w.finished() && random.once_in(12) {
        return Call::Rearm;
    }
    match random.below(100) {
        0 if random.once_in(3) => making(random, w),
        1 if random.once_in(3) => Call::Reset,
        0..=3 => Call::Rearm,
        4..=5 => Call::DiscardNear,
        6..=27 => far_push(random, w),
        28..=50 => near_push(random, w, index),
        51..=64 => near_run(random, w, index),
        65..=67 => Call::Observe,
        68..=71 => Call::BinSamples,
        72..=75 => Call::CeilingSamples,
        76..=79 => Call::Frames,
        80..=83 => Call::Correlation,
        84..=87 => Call::Region,
        88..=91 => Call::BeyondCeiling,
        92..=95 => Call::Finished,
        _ => Call::Exhausted,
    }
}

/// For the same setting, for one of the same lengths, or for any numbers at all.
fn making(random: &mut Random, w: &World) -> Call {
    let (rate, ceiling) = (w.word(0) as u32, w.word(1) as u32);
    let own = |random: &mut Random, value: u32| match random.below(4) {
        0 => choices::word(random, value as u64) as u32,
        _ => value,
    };
    match random.below(3) {
        0 => Call::New { rate, ceiling },
        1 => Call::New {
            rate: random.one_of(w.profile.rates),
            ceiling,
        },
        _ => Call::New {
            rate: own(random, rate),
            ceiling: own(random, ceiling),
        },
    }
}

fn far_push(random: &mut Random, w: &mut World) -> Call {
    let most = random.one_of(&[3, 20, 20, 20, 300]);
    let len = random.between(0, most);
    let samples: Vec<f32> = (0..len).map(|_| choices::sample(random)).collect();
    w.samples = Lent::of(&samples);
    Call::PushFar
}

/// The index goes on, meets a hole nearby, begins a frame, or is any number at all.
fn near_push(random: &mut Random, w: &World, next: &mut u64) -> Call {
    if w.word(12) != 0 || w.word(14) != 0 {
        *next = w.word(24).wrapping_add(1);
    }
    let block = w.bins().decimation;
    let index = match random.below(40) {
        0 => choices::huge(random),
        1 => random.word() >> 3,
        2..=5 => random.below(1 << 30) * block,
        6 => next.wrapping_sub(1),
        7 => next.wrapping_add(1),
        8 => next.wrapping_sub(2),
        9 => next.wrapping_add(random.between(2, 3 * block)),
        10 => next.wrapping_sub(random.between(2, 3 * block)),
        11..=12 => (*next / block + random.below(3)).saturating_sub(1) * block,
        _ => *next,
    };
    *next = index.wrapping_add(1);
    let sample = match random.once_in(20) {
        true => f32::from_bits(choices::odd32(random)),
        false => choices::sample(random),
    };
    Call::PushNear { sample, index }
}

/// Runs of none, of one, of about sixteen, up to a frame and beyond it, from the indices that single samples have. Now and then a sample is not finite.
fn near_run(random: &mut Random, w: &mut World, next: &mut u64) -> Call {
    let Call::PushNear { index: first, .. } = near_push(random, w, next) else {
        unreachable!()
    };
    let bins = w.bins();
    let frame = bins.frame * bins.decimation;
    let inside = w.word(12) * bins.decimation + w.word(14);
    let count = match random.below(16) {
        0 => 0,
        1..=2 => 1,
        3..=4 => 15,
        5..=7 => 16,
        8..=9 => 17,
        10 => frame + 5,
        11 => (frame - inside.min(frame)) + random.below(3),
        12 => 4 * bins.decimation + random.below(bins.decimation),
        _ => random.between(0, 3 * bins.decimation),
    };
    let odd = random.once_in(4).then(|| random.below(count.max(1)));
    let samples: Vec<f32> = (0..count)
        .map(|i| match odd == Some(i) {
            true => f32::from_bits(choices::odd32(random)),
            false => choices::sample(random),
        })
        .collect();
    w.samples = Lent::of(&samples);
    *next = first.wrapping_add(count);
    Call::PushNearRun { first }
}
