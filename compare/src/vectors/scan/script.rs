//! One scan, its calls and what is stored of each.

use crate::coarse::{CoarseScan, FrameAnswer, Geometry};
use crate::record::{hash, Record};
use crate::signal::Signal;
use crate::vectors::call::Call;

const MAKE: u8 = 1;
const FAR: u8 = 2;
const NEAR: u8 = 3;
const SCORE: u8 = 4;
const REARM: u8 = 5;
const DISCARD: u8 = 6;
const RESET: u8 = 7;
const SET_FAR: u8 = 11;
const SET_NEAR: u8 = 12;
const SET_FAR_LEVEL: u8 = 13;
const SET_NEAR_LEVEL: u8 = 14;
const SET_LAG_SUMS: u8 = 15;
const SET_LAG_SUM: u8 = 16;
const SET_COUNTS: u8 = 17;

/// The flag of a record whose buffers stand whole in the file `full`.
const WHOLE: u8 = 16;

/// Buffers up to this span are stored whole, so long as there are few.
const WHOLE_SPAN: usize = 24;
const WHOLE_FRAMES: usize = 24;

#[derive(Default)]
pub struct Stored {
    pub calls: Record,
    pub full: Record,
    scans: usize,
    records: usize,
    answers: [usize; 10],
    whole: usize,
}

impl Stored {
    pub fn report(&self) {
        let Stored {
            scans,
            records,
            answers,
            whole,
            ..
        } = self;
        eprintln!(
            "scan: {scans} scans, {records} calls, {whole} frames whole, answers 1 to 9: {:?}",
            &answers[1..]
        );
    }
}

pub struct Script<'a> {
    pub scan: CoarseScan,
    /// The index of the last near sample that was taken.
    last: u64,
    stored: &'a mut Stored,
}

impl Script<'_> {
    pub fn new(rate: u32, ceiling: u16, stored: &mut Stored) -> Script<'_> {
        stored.scans += 1;
        let mut script = Script {
            scan: CoarseScan::new(rate, ceiling),
            last: 0,
            stored,
        };
        script.store(Call::new(MAKE).count(rate as usize).number(ceiling as u64));
        script
    }

    pub fn geometry(&self) -> Geometry {
        self.scan.geometry()
    }

    pub fn far(&mut self, signal: Signal, place: u64, count: usize) {
        self.scan.push_far(&signal.samples(place, count));
        self.store(Call::new(FAR).count(count).signal(signal, place));
    }

    /// Pushes up to `count` samples, less if the frame is full before. Answers how many, and whether it is full.
    pub fn near(&mut self, signal: Signal, place: u64, first: u64, count: usize) -> (usize, bool) {
        let mut taken = 0;
        let mut full = false;
        for sample in signal.samples(place, count) {
            full = self
                .scan
                .push_numbered(&mut self.last, sample, first + taken as u64);
            taken += 1;
            if full {
                break;
            }
        }
        let call = Call::new(NEAR).answer(full as u8);
        self.store(call.count(taken).number(first).signal(signal, place));
        (taken, full)
    }

    pub fn score(&mut self) -> FrameAnswer {
        let answer = self.scan.scored();
        let number = match answer {
            FrameAnswer::Uncovered => 1,
            FrameAnswer::Ahead => 2,
            FrameAnswer::Quiet => 3,
            FrameAnswer::Flat => 4,
            FrameAnswer::Banked(_) => 5,
            FrameAnswer::Weak => 6,
            FrameAnswer::Ceiling => 7,
            FrameAnswer::Crowded => 8,
            FrameAnswer::Region(_) => 9,
        };
        self.stored.answers[number] += 1;
        let products = self.scan.products(number >= 5);
        self.store(Call::new(SCORE).answer(number as u8).count(products as usize));
        answer
    }

    pub fn rearm(&mut self) {
        self.scan.rearm();
        self.last = 0;
        self.store(Call::new(REARM));
    }

    pub fn discard_near(&mut self) {
        self.scan.discard_near();
        self.store(Call::new(DISCARD));
    }

    pub fn reset(&mut self) {
        self.scan.reset();
        self.last = 0;
        self.store(Call::new(RESET));
    }

    pub fn set_far(&mut self, signal: Signal, place: u64, blocks: u64) {
        let levels = signal.samples(place, self.geometry().envelope);
        self.scan.set_far(levels, blocks);
        self.store(Call::new(SET_FAR).number(blocks).signal(signal, place));
    }

    pub fn set_near(&mut self, signal: Signal, place: u64, first_bin: u64) {
        let levels = signal.samples(place, self.geometry().frame);
        self.scan.set_near(levels, first_bin);
        let geometry = self.geometry();
        self.last = (first_bin + geometry.frame as u64) * geometry.decimation as u64 - 1;
        self.store(Call::new(SET_NEAR).number(first_bin).signal(signal, place));
    }

    pub fn set_far_level(&mut self, bin: u64, level: f32) {
        let slot = (bin % self.geometry().envelope as u64) as usize;
        self.scan.set_far_level(slot, level);
        let bits = level.to_bits() as u64;
        self.store(Call::new(SET_FAR_LEVEL).count(slot).number(bits));
    }

    pub fn set_near_level(&mut self, bin: usize, level: f32) {
        self.scan.set_near_level(bin, level);
        let bits = level.to_bits() as u64;
        self.store(Call::new(SET_NEAR_LEVEL).count(bin).number(bits));
    }

    pub fn set_lag_sums(&mut self, sum: f64) {
        self.scan.set_lag_sums(sum);
        self.store(Call::new(SET_LAG_SUMS).number(sum.to_bits()));
    }

    pub fn set_lag_sum(&mut self, lag: usize, sum: f64) {
        self.scan.set_lag_sum(lag, sum);
        self.store(Call::new(SET_LAG_SUM).count(lag).number(sum.to_bits()));
    }

    pub fn set_counts(&mut self, banked: u32, frames: u32, beyond_ceiling: bool) {
        self.scan.set_counts(banked, frames, beyond_ceiling);
        let call = Call::new(SET_COUNTS).count(banked as usize);
        self.store(call.number(frames as u64).place(beyond_ceiling as u64));
    }

    fn store(&mut self, call: Call) {
        self.stored.records += 1;
        let whole = call.kind == SCORE
            && self.geometry().span <= WHOLE_SPAN
            && self.stored.whole < WHOLE_FRAMES;
        let fields = self.scan.fields();
        let flags = fields.beyond_ceiling as u8
            | (fields.exhausted as u8) << 1
            | (fields.region.is_some() as u8) << 2
            | (self.scan.finished() as u8) << 3
            | if whole { WHOLE } else { 0 };
        let (delay, correlation) = fields.region.map_or((0, 0), |region| {
            (region.delay as u64, region.corr.to_bits())
        });

        let out = &mut self.stored.calls;
        call.store(flags, out);
        out.u32(fields.last_peak.to_bits());
        out.u64(fields.far_blocks)
            .u64(fields.far_sum.to_bits())
            .u64(fields.far_pushed);
        out.u32(fields.far_count as u32).u32(fields.near_len as u32);
        out.u64(fields.near_sum.to_bits()).u64(fields.first_bin);
        out.u32(fields.near_count as u32)
            .u32(fields.banked)
            .u32(fields.frames);
        out.u32(self.scan.correlation().to_bits())
            .u64(delay)
            .u64(correlation);
        for levels in self.scan.levels() {
            out.u32(hash(levels.iter().map(|level| level.to_bits())));
        }
        for sums in self.scan.sums() {
            out.u32(hash(sums.iter().flat_map(|sum| halves(sum.to_bits()))));
        }
        out.u32(0).u64(self.last);
        if whole {
            self.store_whole();
        }
    }

    fn store_whole(&mut self) {
        self.stored.whole += 1;
        for &level in self.scan.levels()[2] {
            self.stored.full.u32(level.to_bits());
        }
        for &sum in self.scan.sums().into_iter().flatten() {
            self.stored.full.u64(sum.to_bits());
        }
    }
}

/// The low and the high half.
fn halves(bits: u64) -> [u32; 2] {
    [bits as u32, (bits >> 32) as u32]
}
