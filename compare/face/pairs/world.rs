//! A pair as a host holds it: 38 words, the values, the common envelope, levels and lag sums of each channel, scratch for both, and the far samples.

use super::shape::{Call, List};
use crate::lent::{Lent, Plain};
use crate::lists::lists;
use crate::rules::Bins;
use crate::scans::profile::FULL;
use crate::scans::referee;
use crate::scans::world::{self as scan, Seen};
use std::mem::replace;

pub const WORDS: usize = COMMON + 2 * OWN;
/// The words of the common part, and those of a channel.
const COMMON: usize = 12;
const OWN: usize = 13;

pub struct World {
    pub state: Lent<u64>,
    pub values: Lent<u64>,
    pub envelope: Lent<f32>,
    pub first_levels: Lent<f32>,
    pub second_levels: Lent<f32>,
    pub window: Lent<f32>,
    pub prefix: Lent<f64>,
    pub squares: Lent<f64>,
    pub scores: Lent<f64>,
    pub first_lag_sums: Lent<f64>,
    pub second_lag_sums: Lent<f64>,
    pub samples: Lent<f32>,
}

lists!(World, Call, List:
    State state, Values values, Envelope envelope, FirstLevels first_levels, SecondLevels second_levels,
    Window window, Prefix prefix, Squares squares, Scores scores,
    FirstLagSums first_lag_sums, SecondLagSums second_lag_sums, Samples samples);

/// Where a channel's words begin.
pub fn place(channel: usize) -> usize {
    COMMON + OWN * channel
}

/// The words of the scan that a channel is with the common part.
pub fn scan_words(pair: &[u64], channel: usize) -> [u64; scan::WORDS] {
    let mut words = [0; scan::WORDS];
    words[..COMMON].copy_from_slice(&pair[..COMMON]);
    words[COMMON..].copy_from_slice(&pair[place(channel)..][..OWN]);
    words
}

/// Puts a channel's own words of a scan back.
pub fn put_own(pair: &mut [u64], channel: usize, words: &[u64]) {
    pair[place(channel)..][..OWN].copy_from_slice(&words[COMMON..]);
}

pub fn put_common(pair: &mut [u64], words: &[u64]) {
    pair[..COMMON].copy_from_slice(&words[..COMMON]);
}

fn taken<T: Plain>(list: &mut Lent<T>) -> Lent<T> {
    replace(list, Lent::new(0, T::GUARD))
}

impl World {
    /// A new pair: two new scans on one far history.
    pub fn new(rate: u32, ceiling: u32) -> World {
        let (first, second) = (
            scan::World::new(rate, ceiling),
            scan::World::new(rate, ceiling),
        );
        let mut state = [0; WORDS];
        put_common(&mut state, first.state.all());
        World {
            state: Lent::of(&state),
            values: first.values,
            envelope: first.envelope,
            first_levels: first.levels,
            second_levels: second.levels,
            window: first.window,
            prefix: first.prefix,
            squares: first.squares,
            scores: first.scores,
            first_lag_sums: first.lag_sums,
            second_lag_sums: second.lag_sums,
            samples: first.samples,
        }
    }

    pub fn bins(&self) -> Bins {
        Bins::of(self.state.all()[0], self.state.all()[1])
    }

    /// Whether the buffers are those of the state's setting: a making may have been for another one.
    pub fn fits(&self) -> bool {
        let bins = self.bins();
        self.envelope.all().len() as u64 == bins.envelope()
            && self.first_levels.all().len() as u64 == bins.frame
            && self.first_lag_sums.all().len() as u64 == bins.lags()
    }

    /// A channel with the common part.
    pub fn seen(&self, channel: usize) -> Seen<'_> {
        let words = |all: &[u64]| scan_words(all, channel);
        let (levels, lag_sums) = match channel {
            0 => (&self.first_levels, &self.first_lag_sums),
            _ => (&self.second_levels, &self.second_lag_sums),
        };
        Seen {
            profile: &FULL,
            state_fits: self.state.lent().len() == WORDS,
            words: words(self.state.all()),
            before: words(self.state.before()),
            values: &self.values,
            envelope: &self.envelope,
            levels,
            window: &self.window,
            prefix: &self.prefix,
            squares: &self.squares,
            scores: &self.scores,
            lag_sums,
            samples: &self.samples,
        }
    }

    /// The common part with a new channel.
    pub fn common(&self) -> Seen<'_> {
        let mut seen = self.seen(0);
        seen.words[COMMON..].fill(0);
        seen.before[COMMON..].fill(0);
        seen
    }

    /// Whether a channel keeps the rules of a scan, with the common part.
    pub fn keeps_rules(&self, channel: usize) -> bool {
        let seen = self.seen(channel);
        (seen.profile.allowed)(seen.word(0), seen.word(1))
            && referee::keeps_rules(&seen.words, &seen.bins())
    }

    /// Does something to a channel with the common part as to a scan.
    pub fn as_scan<T>(&mut self, channel: usize, work: impl FnOnce(&mut scan::World) -> T) -> T {
        let (levels, lag_sums) = match channel {
            0 => (&mut self.first_levels, &mut self.first_lag_sums),
            _ => (&mut self.second_levels, &mut self.second_lag_sums),
        };
        let mut scan = scan::World {
            profile: &FULL,
            state: Lent::of(&scan_words(self.state.all(), channel)),
            values: taken(&mut self.values),
            envelope: taken(&mut self.envelope),
            levels: taken(levels),
            window: taken(&mut self.window),
            prefix: taken(&mut self.prefix),
            squares: taken(&mut self.squares),
            scores: taken(&mut self.scores),
            lag_sums: taken(lag_sums),
            samples: taken(&mut self.samples),
        };
        let done = work(&mut scan);
        *levels = scan.levels;
        *lag_sums = scan.lag_sums;
        put_common(self.state.all_mut(), scan.state.all());
        put_own(self.state.all_mut(), channel, scan.state.all());
        self.values = scan.values;
        self.envelope = scan.envelope;
        self.window = scan.window;
        self.prefix = scan.prefix;
        self.squares = scan.squares;
        self.scores = scan.scores;
        self.samples = scan.samples;
        done
    }
}
