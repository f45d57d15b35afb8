//! A recording made event by event, its header written last.

use super::{Recording, EVENT_LEN, HEADER_LEN, MOST_SAMPLES};
use crate::record::Record;
use crate::signal::Signal;

pub const FAR: u32 = 1;
pub const NEAR: u32 = 2;
pub const REARM: u32 = 3;
pub const DISCARD: u32 = 4;
pub const UNCONFIDENT: u32 = 5;
pub const INTERIOR: u32 = 6;
pub const EDGE: u32 = 7;
pub const DISCONTINUITY: u32 = 8;

pub struct Maker {
    pub rate: u32,
    pub ceiling: u32,
    events: Record,
    far: Record,
    near: Record,
}

impl Maker {
    pub fn new(rate: u32, ceiling: u32) -> Maker {
        Maker {
            rate,
            ceiling,
            events: Record::default(),
            far: Record::default(),
            near: Record::default(),
        }
    }

    /// Any event, good or bad.
    pub fn event(&mut self, kind: u32, count: u32, number: u64) {
        self.events.u32(kind).u32(count).u64(number);
    }

    /// An event whose fields are both unused.
    pub fn plain(&mut self, kind: u32) {
        self.event(kind, 0, 0);
    }

    /// Patterns of the far side, in as few events as the count allows.
    pub fn far_bits(&mut self, patterns: &[u32]) {
        for part in patterns.chunks(MOST_SAMPLES as usize) {
            self.event(FAR, part.len() as u32, 0);
            for &bits in part {
                self.far.u32(bits);
            }
        }
    }

    /// Patterns of the near side from an index on.
    pub fn near_bits(&mut self, first: u64, patterns: &[u32]) {
        for (step, part) in patterns.chunks(MOST_SAMPLES as usize).enumerate() {
            let number = first.wrapping_add(step as u64 * MOST_SAMPLES as u64);
            self.event(NEAR, part.len() as u32, number);
            for &bits in part {
                self.near.u32(bits);
            }
        }
    }

    pub fn far_signal(&mut self, signal: Signal, place: u64, count: u64) {
        self.far_bits(&patterns(signal, place, count));
    }

    pub fn near_signal(&mut self, first: u64, signal: Signal, place: u64, count: u64) {
        self.near_bits(first, &patterns(signal, place, count));
    }

    /// Native samples of a bin and bins of a frame and of the span, as the scope paper has them.
    pub fn geometry(&self) -> (u64, u64, u64) {
        let block = (self.rate as u64 + 500) / 1000;
        let bin_rate = self.rate as u64 / block;
        let bins = |ms: u64| (ms * bin_rate / 1000).max(1);
        (block, bins(256), bins(self.ceiling as u64))
    }

    pub fn recording(self) -> Recording {
        let mut events = Record(header(
            self.rate,
            self.ceiling,
            [&self.events, &self.far, &self.near].map(|record| record.0.len()),
        ));
        events.0.extend(self.events.0);
        Recording {
            events: events.0,
            far: self.far.0,
            near: self.near.0,
        }
    }

    /// What was made so far, without a header.
    pub fn pieces(self) -> Recording {
        Recording {
            events: self.events.0,
            far: self.far.0,
            near: self.near.0,
        }
    }
}

/// The header of a recording whose events, far and near samples have so many bytes.
pub fn header(rate: u32, ceiling: u32, bytes: [usize; 3]) -> Vec<u8> {
    let mut header = Record::default();
    header.u32(rate).u32(ceiling);
    header.u32((bytes[0] / EVENT_LEN) as u32).u32(HEADER_LEN as u32);
    header.u32((bytes[1] / 4) as u32).u32((bytes[2] / 4) as u32);
    header.0
}

pub fn patterns(signal: Signal, place: u64, count: u64) -> Vec<u32> {
    (place..place + count).map(|n| signal.bits(n)).collect()
}
