//! A scan as a host holds it: 25 words, the values, the seven buffers and the far samples.

use super::profile::{Profile, FULL};
use super::shape::{Call, List};
use crate::lent::Lent;
use crate::lists::lists;
use crate::rules::Bins;

pub const WORDS: usize = 25;

pub struct World {
    pub profile: &'static Profile,
    pub state: Lent<u64>,
    pub values: Lent<u64>,
    pub envelope: Lent<f32>,
    pub levels: Lent<f32>,
    pub window: Lent<f32>,
    pub prefix: Lent<f64>,
    pub squares: Lent<f64>,
    pub scores: Lent<f64>,
    pub lag_sums: Lent<f64>,
    pub samples: Lent<f32>,
}

lists!(World, Call, List:
    State state, Values values, Envelope envelope, Levels levels, Window window,
    Prefix prefix, Squares squares, Scores scores, LagSums lag_sums, Samples samples);

/// What a call on one scan has to do with. A host may also hold it otherwise than as a `World`.
pub struct Seen<'w> {
    pub profile: &'static Profile,
    /// Whether the state is lent with the length that it should have.
    pub state_fits: bool,
    pub words: [u64; WORDS],
    /// The words when the state was last kept.
    pub before: [u64; WORDS],
    pub values: &'w Lent<u64>,
    pub envelope: &'w Lent<f32>,
    pub levels: &'w Lent<f32>,
    pub window: &'w Lent<f32>,
    pub prefix: &'w Lent<f64>,
    pub squares: &'w Lent<f64>,
    pub scores: &'w Lent<f64>,
    pub lag_sums: &'w Lent<f64>,
    pub samples: &'w Lent<f32>,
}

impl Seen<'_> {
    pub fn word(&self, at: usize) -> u64 {
        self.words[at]
    }

    pub fn bins(&self) -> Bins {
        Bins::with(self.profile.slack, self.word(0), self.word(1))
    }

    pub fn finished(&self) -> bool {
        self.word(19) == 1 || self.word(23) == 1
    }
}

impl World {
    /// A new scan, as the scope paper has it.
    pub fn new(rate: u32, ceiling: u32) -> World {
        World::of(&FULL, rate, ceiling)
    }

    pub fn of(profile: &'static Profile, rate: u32, ceiling: u32) -> World {
        let bins = Bins::with(profile.slack, rate as u64, ceiling as u64);
        let mut state = [0; WORDS];
        state[0] = rate as u64;
        state[1] = ceiling as u64;
        state[2..8].copy_from_slice(&bins.words());
        let levels = |len: u64| Lent::new(len as usize, 0.0_f32);
        let sums = |len: u64| Lent::new(len as usize, 0.0_f64);
        World {
            profile,
            state: Lent::of(&state),
            values: Lent::new(3, 0),
            envelope: levels(bins.envelope()),
            levels: levels(bins.frame),
            window: levels(bins.window()),
            prefix: sums(bins.prefix()),
            squares: sums(bins.prefix()),
            scores: sums(bins.lags()),
            lag_sums: sums(bins.lags()),
            samples: levels(0),
        }
    }

    pub fn seen(&self) -> Seen<'_> {
        let words = |all: &[u64]| all.try_into().expect("25 words");
        Seen {
            profile: self.profile,
            state_fits: self.state.lent().len() == WORDS,
            words: words(self.state.all()),
            before: words(self.state.before()),
            values: &self.values,
            envelope: &self.envelope,
            levels: &self.levels,
            window: &self.window,
            prefix: &self.prefix,
            squares: &self.squares,
            scores: &self.scores,
            lag_sums: &self.lag_sums,
            samples: &self.samples,
        }
    }

    pub fn word(&self, at: usize) -> u64 {
        self.state.all()[at]
    }

    pub fn set_word(&mut self, at: usize, word: u64) {
        self.state.all_mut()[at] = word;
    }

    pub fn bins(&self) -> Bins {
        Bins::with(self.profile.slack, self.word(0), self.word(1))
    }

    pub fn finished(&self) -> bool {
        self.word(19) == 1 || self.word(23) == 1
    }

    /// Whether the buffers are those of the state's setting: a making may have been for another one.
    pub fn fits(&self) -> bool {
        let bins = self.bins();
        self.envelope.all().len() as u64 == bins.envelope()
            && self.levels.all().len() as u64 == bins.frame
            && self.lag_sums.all().len() as u64 == bins.lags()
    }
}
