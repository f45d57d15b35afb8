//! The original in the state of a world as it was kept: brought there, and compared with it bit for bit.

use super::shape::List;
use super::world::{World, WORDS};
use crate::delay::DelayEstimator;
use crate::lent::Buffer;

/// The original, and where the peak of the last scan stands last. The original does not keep that: a second one finds it in the array turned round.
pub struct Original {
    pub fine: DelayEstimator,
    turned: DelayEstimator,
    last: u64,
}

impl Original {
    /// At 1,000 Hz a millisecond is a sample.
    pub fn new(span: u32) -> Original {
        Original {
            fine: DelayEstimator::new(1000, span as u16),
            turned: DelayEstimator::new(1000, span as u16),
            last: 0,
        }
    }

    /// Notes where the peak of the scan just recorded stands last.
    pub fn note_last(&mut self) -> u64 {
        self.last = self.turned.last_of(self.fine.correlation()) as u64;
        self.last
    }

    /// Where the last scan's peak stands, first and last.
    pub fn peak_at(&self) -> Option<[u64; 2]> {
        let first = self.fine.last_scan_peak_at()?;
        Some([first as u64, self.last])
    }
}

/// Brings an original to the state that the words and both frames said. A count at its largest value, which the original would pass, is set
/// one lower. Where the words say another span than the lists have, frames that do not fit are not lent.
pub fn bring(w: &World, original: &mut Original) {
    let words = w.state.before();
    if original.fine.max_delay() as u64 != words[0] {
        *original = Original::new(words[0] as u32);
    }
    original.last = words[13];
    let fine = &mut original.fine;
    let retained = (words[5] == 1).then(|| w.retained.before());
    let counts = (
        lower(words[6], u32::MAX as u64) as u32,
        lower(words[7], u32::MAX as u64) as u32,
        lower(words[8], u64::MAX),
    );
    let mut near = w.near.before().to_vec();
    near.resize(words[4] as usize, 0.0);
    fine.set_state(words[3] as usize, &near, retained, counts);
    set_last_scan(words, fine);
}

fn lower(count: u64, largest: u64) -> u64 {
    count - (count == largest) as u64
}

fn set_last_scan(words: &[u64], fine: &mut DelayEstimator) {
    let peak_at = (words[10] == 1).then(|| words[11] as usize);
    fine.set_last_scan(f64::from_bits(words[9]), peak_at, words[12] as usize);
}

/// Takes back what a scan recorded.
pub fn forget_scan(w: &World, fine: &mut DelayEstimator) {
    let words = w.state.before();
    set_last_scan(words, fine);
    fine.set_counts(fine.frames(), fine.skipped(), lower(words[8], u64::MAX));
}

/// The words that the original's state has, over those that were there before. Where it stands one below the largest
/// value that a count had, that count stays at it.
pub fn stored(w: &World, original: &Original) -> [u64; WORDS] {
    let fine = &original.fine;
    let before: [u64; WORDS] = w.state.before().try_into().expect("14 words");
    let count = |at: usize, largest: u64, now: u64| match before[at] == largest {
        true if now == largest - 1 => largest,
        _ => now,
    };
    let fields = fine.fields();
    let mut words = before;
    words[0] = fine.max_delay() as u64;
    words[1] = fine.window_len() as u64;
    words[2] = fine.frame_len() as u64;
    words[3] = fine.search_range().0 as u64;
    words[4] = fine.near_frame().len() as u64;
    words[5] = fields.retained as u64;
    words[6] = count(6, u32::MAX as u64, fine.frames() as u64);
    words[7] = count(7, u32::MAX as u64, fine.skipped() as u64);
    words[8] = count(8, u64::MAX, fine.scans());
    words[9] = fine.last_scan_ratio().to_bits();
    words[10] = original.peak_at().is_some() as u64;
    if let Some([first, last]) = original.peak_at() {
        words[11] = first;
        words[13] = last;
    }
    words[12] = fine.last_scan_origin() as u64;
    words
}

/// Whether a list holds what the original's does; of a frame that is not retained, what was there before.
pub fn holds(w: &World, fine: &DelayEstimator, list: List) -> bool {
    match list {
        List::State | List::Values => true,
        List::Near => w.near.begins(fine.near_frame()),
        List::Retained if fine.fields().retained => w.retained.holds(fine.retained_near()),
        List::Retained => w.retained.unchanged(),
        List::Far => w.far.unchanged(),
        List::Correlation => w.correlation.unchanged(),
        List::Samples => w.samples.unchanged(),
    }
}
