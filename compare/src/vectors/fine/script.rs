//! One fine stage, its calls and what is stored of each.

use crate::delay::{DelayEstimator, FineLock, FineObservation, WindowSupport};
use crate::record::{hash, Record};
use crate::signal::Signal;
use crate::vectors::call::Call;

const MAKE: u8 = 1;
const NEAR: u8 = 2;
const GATE: u8 = 3;
const RESCAN: u8 = 4;
const RESTART: u8 = 5;
const RELOCATE: u8 = 6;
const RESET: u8 = 7;
const PEAK: u8 = 8;
const SET_WINDOW: u8 = 11;
const SET_WINDOW_SAMPLE: u8 = 12;
const SET_ARRAY: u8 = 13;
const SET_ARRAY_ENTRY: u8 = 14;
const SET_COUNTS: u8 = 15;
const NEAR_SAMPLE: u8 = 16;

const NOTHING_RETAINED: u8 = 0;
const SKIPPED: u8 = 1;
const SILENT: u8 = 2;
const FIRST: u8 = 3;
const LATER: u8 = 4;

/// Above this span an array that the transform gave is too long to be stored.
const STORED_SPAN: usize = 1000;

#[derive(Default)]
pub struct Stored {
    pub calls: Record,
    pub arrays: Record,
    pub records: usize,
    pub gates: [usize; 5],
    pub locks: usize,
    pub ties: usize,
}

/// One fine stage, the far window that the host holds, and what is stored of each call. The original does not say where the peak stands last: `turned`
/// finds it in the array turned round, and `last` is that of the recorded scan, 0 if none is.
pub struct Script<'a> {
    pub fine: DelayEstimator,
    turned: DelayEstimator,
    last: usize,
    window: Vec<f32>,
    stored: &'a mut Stored,
}

impl Script<'_> {
    pub fn new(span: u16, stored: &mut Stored) -> Script<'_> {
        // At 1,000 Hz a millisecond is a sample.
        let fine = DelayEstimator::new(1000, span);
        let window = vec![0.0; fine.window_len()];
        let mut script = Script {
            fine,
            turned: DelayEstimator::new(1000, span),
            last: 0,
            window,
            stored,
        };
        script.store(Call::new(MAKE).count(span as usize));
        script
    }

    pub fn near(&mut self, signal: Signal, place: u64, count: usize) {
        let mut full = false;
        for sample in signal.samples(place, count) {
            full = self.fine.push_near(sample);
        }
        let call = Call::new(NEAR).answer(full as u8);
        self.store(call.count(count).signal(signal, place));
    }

    pub fn near_sample(&mut self, sample: f32) {
        let full = self.fine.push_near(sample);
        let call = Call::new(NEAR_SAMPLE).answer(full as u8);
        self.store(call.number(sample.to_bits() as u64));
    }

    /// Whether the arrays that the transform gives are stored. Where not, each frame is the first one.
    pub fn stores_arrays(&self) -> bool {
        self.fine.max_delay() <= STORED_SPAN
    }

    /// Fills up the frame.
    pub fn near_rest(&mut self, signal: Signal, place: u64) {
        let rest = self.fine.frame_len() - self.fine.near_frame().len();
        if rest > 0 {
            self.near(signal, place, rest);
        }
    }

    pub fn set_window(&mut self, signal: Signal, place: u64) {
        self.window = signal.samples(place, self.window.len());
        self.store(Call::new(SET_WINDOW).signal(signal, place));
    }

    pub fn set_window_sample(&mut self, at: usize, sample: f32) {
        self.window[at] = sample;
        let bits = sample.to_bits() as u64;
        self.store(Call::new(SET_WINDOW_SAMPLE).count(at).number(bits));
    }

    pub fn gate(&mut self, missing_head: usize, missing_tail: usize) {
        let support = WindowSupport {
            missing_head,
            missing_tail,
        };
        let skipped = self.fine.skipped();
        let seen = self.fine.observe(&self.window, support);
        let unsupported = self.unsupported(support);
        assert_eq!(
            unsupported,
            self.fine.skipped() != skipped || skipped == u32::MAX && unsupported
        );
        let answer = match (unsupported, seen.scored) {
            (true, _) => SKIPPED,
            (_, false) => SILENT,
            _ if self.fine.frames() == 1 => FIRST,
            _ => LATER,
        };
        self.judged(GATE, answer, support, seen);
    }

    pub fn rescan(&mut self, missing_head: usize, missing_tail: usize) {
        let support = WindowSupport {
            missing_head,
            missing_tail,
        };
        let retained = self.fine.fields().retained;
        let seen = self.fine.rescan(&self.window, support);
        let answer = match (retained, self.unsupported(support), seen.scored) {
            (false, _, _) => NOTHING_RETAINED,
            (_, true, _) => SKIPPED,
            (_, _, false) => SILENT,
            _ => LATER,
        };
        self.judged(RESCAN, answer, support, seen);
    }

    fn unsupported(&self, support: WindowSupport) -> bool {
        support.missing_head > 0 || support.missing_tail > self.fine.frame_len() / 4
    }

    /// Stores a gate; where the original went on to the peak rule, with the array that it read.
    fn judged(&mut self, kind: u8, answer: u8, support: WindowSupport, seen: FineObservation) {
        self.stored.gates[answer as usize] += 1;
        let call = Call::new(kind).answer(answer).count(support.missing_head);
        let call = call.number(support.missing_tail as u64);
        if answer != LATER {
            return self.store(call);
        }
        for entry in self.fine.correlation() {
            self.stored.arrays.u32(entry.to_bits());
        }
        self.store_scan(call, seen);
    }

    pub fn restart(&mut self) {
        self.fine.restart();
        self.store(Call::new(RESTART));
    }

    pub fn relocate(&mut self, origin: u64) {
        self.fine.relocate(origin as usize);
        self.store(Call::new(RELOCATE).number(origin));
    }

    pub fn reset(&mut self) {
        self.fine.reset();
        self.last = 0;
        self.store(Call::new(RESET));
    }

    pub fn set_counts(&mut self, frames: u32, skipped: u32, scans: u64) {
        self.fine.set_counts(frames, skipped, scans);
        let call = Call::new(SET_COUNTS).count(frames as usize);
        self.store(call.number(skipped as u64).place(scans));
    }

    pub fn set_array(&mut self, signal: Signal, place: u64) {
        let entries = signal.samples(place, self.fine.max_delay() + 1);
        self.fine.correlation().copy_from_slice(&entries);
        self.store(Call::new(SET_ARRAY).signal(signal, place));
    }

    pub fn set_array_entry(&mut self, at: usize, entry: f32) {
        self.fine.correlation()[at] = entry;
        let bits = entry.to_bits() as u64;
        self.store(Call::new(SET_ARRAY_ENTRY).count(at).number(bits));
    }

    pub fn peak(&mut self) {
        let seen = self.fine.peak_rule();
        self.store_scan(Call::new(PEAK), seen);
    }

    /// Stores a call that came to the peak rule.
    fn store_scan(&mut self, call: Call, seen: FineObservation) {
        self.last = self.turned.last_of(self.fine.correlation());
        let first = self.fine.fields().last_peak_at;
        let first = first.expect("the scan was recorded");
        self.stored.ties += (first != self.last) as usize;
        self.store_found(call, (first, self.last), seen.candidate);
    }

    fn store(&mut self, call: Call) {
        self.store_found(call, (0, 0), None);
    }

    /// Stores a call, with where the peak rule found the peak, first and last, and the lock.
    fn store_found(&mut self, call: Call, found: (usize, usize), lock: Option<FineLock>) {
        self.stored.records += 1;
        self.stored.locks += lock.is_some() as usize;
        let fine = &self.fine;
        let fields = fine.fields();
        let flags = fields.retained as u8
            | (fields.last_peak_at.is_some() as u8) << 1
            | (lock.is_some() as u8) << 2;
        let lock = lock.unwrap_or(FineLock {
            delay: 0,
            peak_at: 0,
            ratio: 0.0,
        });
        let retained = if fields.retained {
            fine.retained_near()
        } else {
            &[]
        };
        let out = &mut self.stored.calls;
        call.store(flags, out);
        out.u32(fine.near_frame().len() as u32)
            .u64(fine.search_range().0 as u64);
        out.u32(fine.frames()).u32(fine.skipped());
        out.u64(fine.last_scan_ratio().to_bits())
            .u64(fine.last_scan_origin() as u64);
        out.u32(fields.last_peak_at.unwrap_or(0) as u32)
            .u32(found.0 as u32);
        out.u64(fine.scans())
            .u64(lock.delay as u64)
            .u64(lock.ratio.to_bits());
        out.u32(hash(
            fine.near_frame().iter().map(|sample| sample.to_bits()),
        ));
        out.u32(hash(retained.iter().map(|sample| sample.to_bits())));
        out.u32(fine.frame_len() as u32)
            .u32(fine.window_len() as u32);
        out.u32(self.last as u32).u32(found.1 as u32);
    }
}
