//! Long recordings, as a card would make them: far and near samples in turn, so many to an event. For timing. They are made piece by piece, so that a day's recording needs no day's memory.

use super::super::maker::*;
use super::super::Recording;
use crate::random::Random;
use crate::signal::Signal;

/// A second of samples or more is made at a time.
const PIECE: u64 = 192_000;

/// What a long recording is asked to be.
#[derive(Clone, Copy)]
pub struct Plan {
    pub what: What,
    pub rate: u32,
    pub ceiling: u32,
    /// Samples of an event.
    pub event: u64,
    /// Samples of a side, or cycles; whole events of them are made.
    pub length: u64,
}

#[derive(Clone, Copy, PartialEq)]
pub enum What {
    /// The near side has nothing to do with the far one, and the search begins anew behind every four frames of 256 ms and some milliseconds, so that a region found by chance ends it for
    /// as long at most: the scan is always at work.
    Working,
    /// The near side is the far one, 230 ms later and softer: a region is found at once, and every later near sample is ignored.
    Found,
    /// Cycles of every outcome, and no sample.
    Cycles,
}

impl What {
    pub fn named(name: &str) -> Option<What> {
        match name {
            "working" => Some(What::Working),
            "found" => Some(What::Found),
            "cycles" => Some(What::Cycles),
            _ => None,
        }
    }
}

/// A long recording under way.
pub struct Long {
    plan: Plan,
    far: Signal,
    other: Signal,
    random: Random,
    at: u64,
}

impl Long {
    pub fn new(seed: u64, plan: Plan) -> Long {
        let mut random = Random::new(seed);
        let hold = (plan.rate / 200) as u16;
        Long {
            plan,
            far: Signal::speech(&mut random, hold),
            other: Signal::speech(&mut random, hold),
            random,
            at: 0,
        }
    }

    /// The whole of it at once, with its header.
    #[allow(dead_code)]
    pub fn whole(mut self) -> Recording {
        let mut maker = Maker::new(self.plan.rate, self.plan.ceiling);
        while self.at < self.plan.length {
            self.turn(&mut maker);
        }
        maker.recording()
    }

    /// The next piece, without a header; nothing behind the last one.
    pub fn piece(&mut self) -> Option<Recording> {
        let end = self.plan.length.min(self.at + PIECE);
        if self.at >= end {
            return None;
        }
        let mut maker = Maker::new(self.plan.rate, self.plan.ceiling);
        while self.at < end {
            self.turn(&mut maker);
        }
        Some(maker.pieces())
    }

    fn turn(&mut self, maker: &mut Maker) {
        let (at, event) = (self.at, self.plan.event);
        self.at += event;
        if self.plan.what == What::Cycles {
            return self.cycle(maker);
        }
        maker.far_signal(self.far, at, event);
        if self.plan.what == What::Found {
            let late = at.saturating_sub(self.plan.rate as u64 * 23 / 100);
            let softer = Signal {
                base: self.far.base - 3,
                ..self.far
            };
            maker.near_signal(at, softer, late, event);
            return;
        }
        maker.near_signal(at, self.other, at, event);
        let search = self.plan.rate as u64 * 104 / 100;
        if at / search != (at + event) / search {
            maker.plain(REARM);
        }
    }

    /// Mostly candidates near the alignment, now and then one far from it, one at the edge, an unconfident cycle or a discontinuity.
    fn cycle(&mut self, maker: &mut Maker) {
        let delay = 4_800 + self.random.below(64);
        match self.random.below(16) {
            0 => maker.plain(UNCONFIDENT),
            1 => maker.plain(DISCONTINUITY),
            2 => maker.event(EDGE, 4_800, delay),
            3 | 4 => maker.event(INTERIOR, 4_800, delay + 4_000),
            _ => maker.event(INTERIOR, 4_800, delay),
        }
    }
}
