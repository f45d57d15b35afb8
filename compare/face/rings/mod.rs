//! All calls of the ring in random order, with random damage, beside the original.

mod referee;
mod shape;
mod world;

use crate::choices;
use crate::course::{Case, Walker};
use crate::face::ring as face;
use crate::lent::{Buffer, Lent};
use crate::random::Random;
use crate::ring::ReferenceRing;
use crate::rules::Judged;
use crate::trial::Subject;
use shape::{Call, List};
use world::World;

pub struct Ring {
    original: ReferenceRing,
    /// The window that the last call read, as patterns.
    read: Option<Vec<u32>>,
}

fn face(w: &mut World, call: &Call) -> u32 {
    let (state, buffer) = (w.state.lent_mut(), w.buffer.lent_mut());
    let values = w.values.lent_mut();
    match *call {
        Call::New => face::new(state, buffer),
        Call::Push => face::push(state, buffer, w.samples.lent()),
        Call::PushFloats => face::push_floats(state, buffer, w.floats.lent()),
        Call::Clear => face::clear(state, buffer),
        Call::Get(at) => face::get(state, buffer, at, values),
        Call::Window { at, back } => face::window(state, buffer, at, back, w.window.lent_mut(), values),
        Call::WindowFloats { at, back } => {
            face::window_floats(state, buffer, at, back, w.float_window.lent_mut(), values)
        }
        Call::NextAbs => face::next_abs(state, buffer, values),
        Call::Capacity => face::capacity(state, buffer, values),
        Call::Dropped => face::dropped(state, buffer, values),
    }
}

impl Subject for Ring {
    type World = World;
    const DUE: fn(&World, &Call) -> Judged = referee::due;
    const FACE: fn(&mut World, &Call) -> u32 = face;

    fn bring(&mut self, w: &World) {
        let kept = floats(w.buffer.lent_before());
        self.read = None;
        self.original = ReferenceRing::new(kept.len());
        self.original.set_samples(kept.into_iter());
        self.original.set_next_abs(w.state.before()[0]);
    }

    fn original(&mut self, w: &World, call: &Call) -> (u32, Vec<u64>) {
        let ring = &mut self.original;
        let value = match *call {
            // The original's own buffer would be new with it; the one that is lent stays as it is.
            Call::New => {
                self.bring(w);
                self.original.set_next_abs(0);
                return (16, vec![]);
            }
            Call::Clear => {
                ring.clear();
                return (16, vec![]);
            }
            Call::Push => {
                ring.push(&floats(w.samples.lent()));
                return (16, vec![]);
            }
            // A contract tells no NaN's payload from another's: every NaN is stored as the quiet one.
            Call::PushFloats => {
                let one_nan = |x: &f32| if x.is_nan() { f32::from_bits(0x7fc0_0000) } else { *x };
                ring.push(&w.floats.lent().iter().map(one_nan).collect::<Vec<f32>>());
                return (16, vec![]);
            }
            Call::Window { at, back } => return self.window(at, back, w.window.lent().len()),
            Call::WindowFloats { at, back } => return self.window(at, back, w.float_window.lent().len()),
            Call::Get(at) => match ring.get(at) {
                None => return (16, vec![]),
                Some(sample) => return (17, vec![place(w, at, sample)]),
            },
            Call::NextAbs => ring.next_abs(),
            Call::Capacity => ring.capacity() as u64,
            Call::Dropped => ring.dropped(),
        };
        (16, vec![value])
    }

    fn stored(&self, _: &World, _: &Call) -> Vec<u64> {
        vec![self.original.next_abs()]
    }

    fn holds(&self, w: &World, list: List) -> bool {
        match list {
            List::State | List::Values => true,
            List::Buffer => w.buffer.holds(&patterns(self.original.samples())),
            List::Samples => w.samples.unchanged(),
            List::Floats => w.floats.unchanged(),
            List::Window => match &self.read {
                None => w.window.unchanged(),
                Some(read) => w.window.holds(read),
            },
            List::FloatWindow => match &self.read {
                None => w.float_window.unchanged(),
                Some(read) => w.float_window.holds(&with_nans(&floats(read), w.float_window.lent())),
            },
        }
    }
}

impl Ring {
    /// Sample by sample, by the original's own read; 0 where there is none.
    fn window(&mut self, at: u64, back: u64, len: usize) -> (u32, Vec<u64>) {
        let next = self.original.next_abs() as i128;
        let (mut head, mut tail, mut read) = (0, 0, vec![]);
        for i in 0..len {
            let index = at as i128 + i as i128 - back as i128;
            let sample = u64::try_from(index).ok().and_then(|index| self.original.get(index));
            match sample {
                Some(_) => {}
                None if index < next => head += 1,
                None => tail += 1,
            }
            read.push(sample.map_or(0, f32::to_bits));
        }
        self.read = Some(read);
        (16, vec![head, tail])
    }
}

/// The payload of a NaN that is read as a float is left open: where both are NaNs, what is there is due.
fn with_nans(due: &[f32], there: &[f32]) -> Vec<f32> {
    let one = |(due, there): (&f32, &f32)| if due.is_nan() && there.is_nan() { *there } else { *due };
    due.iter().zip(there).map(one).collect()
}

/// The place is judged by the sample that stands there; none is right where another one does.
fn place(w: &World, at: u64, sample: f32) -> u64 {
    let cells = w.buffer.lent();
    let place = at % cells.len() as u64;
    match cells[place as usize] == sample.to_bits() {
        true => place,
        false => u64::MAX,
    }
}

fn floats(patterns: &[u32]) -> Vec<f32> {
    patterns.iter().map(|bits| f32::from_bits(*bits)).collect()
}

fn patterns(samples: &[f32]) -> Vec<u32> {
    samples.iter().map(|sample| sample.to_bits()).collect()
}

impl Walker for Ring {
    const WHAT: &'static str = "ring";
    const EPISODE: u64 = 2000;
    const DAMAGE: u64 = 5;
    const CASES: &'static [Case<Call>] = &[];

    fn new() -> (Ring, World) {
        let original = ReferenceRing::new(1);
        (Ring { original, read: None }, World::new(&[0]))
    }

    fn begin(&mut self, random: &mut Random) -> World {
        let capacity = match random.once_in(10) {
            true => random.between(1, 500),
            false => random.between(1, 20),
        };
        World::new(&samples(random, capacity))
    }

    fn choose(&mut self, random: &mut Random, w: &mut World) -> Call {
        let capacity = w.buffer.due() as u64;
        match random.below(60) {
            0 => Call::New,
            1 => Call::Clear,
            2..=15 => {
                let most = random.one_of(&[1, 5, 2 * capacity + 3]);
                let count = random.between(0, most);
                w.samples = Lent::of(&samples(random, count));
                Call::Push
            }
            16..=30 => Call::Get(match random.below(4) {
                0 => choices::word(random, w.accepted()),
                _ => (w.accepted() + 3).wrapping_sub(random.below(capacity + 8)),
            }),
            40..=45 => {
                let most = random.one_of(&[1, 5, 2 * capacity + 3]);
                let count = random.between(0, most);
                w.floats = Lent::of(&floats(&samples(random, count)));
                Call::PushFloats
            }
            46..=59 => window(random, w),
            31..=33 => Call::NextAbs,
            34..=36 => Call::Capacity,
            37..=39 => Call::Dropped,
            _ => unreachable!("of 60"),
        }
    }
}

/// A window of any length, most of them around what is kept; now and then from an odd place.
fn window(random: &mut Random, w: &mut World) -> Call {
    let capacity = w.buffer.due() as u64;
    let most = random.one_of(&[0, 3, capacity, 2 * capacity + 9]);
    let count = random.between(0, most);
    let back = match random.below(6) {
        0 => choices::word(random, w.accepted()),
        1 => 0,
        _ => random.below(2 * capacity + 9),
    };
    let at = match random.below(6) {
        0 => choices::word(random, back),
        1 => back.wrapping_sub(random.below(20)),
        2 => back.wrapping_add(w.accepted()).wrapping_sub(random.below(capacity + 8)),
        _ => (w.accepted() + 3).wrapping_sub(random.below(capacity + 8)),
    };
    let there = samples(random, count);
    if random.once_in(2) {
        w.window = Lent::of(&there);
        return Call::Window { at, back };
    }
    w.float_window = Lent::of(&floats(&there));
    Call::WindowFloats { at, back }
}

/// Any patterns, every eighth an odd one.
fn samples(random: &mut Random, count: u64) -> Vec<u32> {
    let sample = |random: &mut Random| match random.once_in(8) {
        true => choices::odd32(random),
        false => random.word() as u32,
    };
    (0..count).map(|_| sample(random)).collect()
}
