// Accessors of the comparison: every field that the gate and the peak rule touch, read and set.
#[derive(Clone, Copy)]
pub(crate) struct Fields {
    pub(crate) retained: bool,
    pub(crate) last_peak_at: Option<usize>,
}

impl DelayEstimator {
    pub(crate) fn fields(&self) -> Fields {
        Fields {
            retained: self.retained_near_valid,
            last_peak_at: self.last_scan_peak_at,
        }
    }

    pub(crate) fn near_frame(&self) -> &[f32] {
        &self.near_frame
    }

    pub(crate) fn retained_near(&self) -> &[f32] {
        &self.retained_near
    }

    /// The array that the peak rule reads: entries 0 to span.
    pub(crate) fn correlation(&mut self) -> &mut [f32] {
        &mut self.correlation[..=self.max_delay]
    }

    pub(crate) fn set_counts(&mut self, frames: u32, skipped: u32, scans: u64) {
        self.frames = frames;
        self.skipped = skipped;
        self.scans = scans;
    }

    /// Every field that the gate and the peak rule touch. Of both frames as much as there is.
    pub(crate) fn set_state(
        &mut self,
        origin: usize,
        near: &[f32],
        retained: Option<&[f32]>,
        counts: (u32, u32, u64),
    ) {
        self.search_origin = origin;
        self.near_frame.clear();
        self.near_frame.extend_from_slice(near);
        self.retained_near_valid = retained.is_some();
        self.retained_near.clear();
        self.retained_near
            .extend_from_slice(retained.unwrap_or(&[]));
        self.set_counts(counts.0, counts.1, counts.2);
    }

    /// What the last scan left.
    pub(crate) fn set_last_scan(&mut self, ratio: f64, peak_at: Option<usize>, origin: usize) {
        self.last_scan_ratio = ratio;
        self.last_scan_peak_at = peak_at;
        self.last_scan_origin = origin;
    }

    /// Where the largest of `entries` stands last, by the peak rule on the array turned round: there it is the first. Its scan is recorded here, so
    /// this is asked of an estimator that is kept for it.
    pub(crate) fn last_of(&mut self, entries: &[f32]) -> usize {
        let span = self.max_delay;
        let turned: Vec<f32> = entries.iter().rev().copied().collect();
        self.correlation().copy_from_slice(&turned);
        self.peak_rule();
        span - self.last_scan_peak_at.expect("the scan was recorded")
    }
}
