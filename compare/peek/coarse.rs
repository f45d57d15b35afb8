// Accessors of the comparison: every field and buffer, read and set, and the name of what `observe` did.

/// The nine answers of a frame.
#[derive(Clone, Copy, PartialEq, Debug)]
pub(crate) enum FrameAnswer {
    Uncovered,
    Ahead,
    Quiet,
    Flat,
    Banked(f32),
    Weak,
    Ceiling,
    Crowded,
    Region(CoarseRegion),
}

impl PartialEq for CoarseRegion {
    fn eq(&self, other: &CoarseRegion) -> bool {
        self.delay == other.delay && self.corr.to_bits() == other.corr.to_bits()
    }
}

impl Clone for CoarseScan {
    fn clone(&self) -> CoarseScan {
        CoarseScan {
            far_env: self.far_env.clone(),
            near_env: self.near_env.clone(),
            window: self.window.clone(),
            prefix_sum: self.prefix_sum.clone(),
            prefix_sq: self.prefix_sq.clone(),
            corr: self.corr.clone(),
            corr_avg: self.corr_avg.clone(),
            ..*self
        }
    }
}

/// What follows from rate and ceiling.
#[derive(Clone, Copy)]
pub(crate) struct Geometry {
    pub(crate) decimation: usize,
    pub(crate) span: usize,
    pub(crate) frame: usize,
    pub(crate) ceiling_guard: usize,
    pub(crate) peak_guard: usize,
    pub(crate) envelope: usize,
}

/// Every other field that is no buffer.
#[derive(Clone, Copy)]
pub(crate) struct Fields {
    pub(crate) far_blocks: u64,
    pub(crate) far_sum: f64,
    pub(crate) far_count: usize,
    pub(crate) far_pushed: u64,
    pub(crate) near_len: usize,
    pub(crate) near_sum: f64,
    pub(crate) near_count: usize,
    pub(crate) first_bin: u64,
    pub(crate) banked: u32,
    pub(crate) frames: u32,
    pub(crate) last_peak: f32,
    pub(crate) region: Option<CoarseRegion>,
    pub(crate) beyond_ceiling: bool,
    pub(crate) exhausted: bool,
}

impl CoarseScan {
    /// Scores the full frame and names the answer. `observe` itself names nothing, so copies are asked again with one
    /// hindrance taken away each: the unchanged code decides.
    pub(crate) fn scored(&mut self) -> FrameAnswer {
        let answer = self.foreseen();
        self.observe();
        answer
    }

    /// The products that the lag sums of the frame just scored took, if it counted. The original counts none: the lags that its own test lets
    /// through are counted from the prefixes that it left, and every lag that has a score must be among them.
    pub(crate) fn products(&self, counted: bool) -> u64 {
        if !counted {
            return 0;
        }
        let frame = self.frame;
        let formed = |k: usize| {
            let s1 = self.prefix_sum[k + frame] - self.prefix_sum[k];
            let s2 = self.prefix_sq[k + frame] - self.prefix_sq[k];
            let far_energy = s2 - s1 * s1 / frame as f64;
            !(far_energy <= COARSE_VARIANCE_FLOOR)
        };
        let lags = || 0..=self.span;
        assert!(lags().all(|k| formed(k) || self.corr[k] == 0.0), "a lag has a score and no products");
        (frame * lags().filter(|&k| formed(k)).count()) as u64
    }

    fn foreseen(&self) -> FrameAnswer {
        let plain = self.asked(|scan| scan.frames = 0);
        if plain.frames == 0 {
            self.foreseen_uncounted()
        } else if plain.accumulated > 0 {
            FrameAnswer::Banked(plain.last_corr)
        } else if let Some(region) = plain.best {
            FrameAnswer::Region(region)
        } else if self
            .asked(|scan| scan.beyond_ceiling = false)
            .beyond_ceiling
        {
            FrameAnswer::Ceiling
        } else if self
            .asked(|scan| scan.peak_guard = usize::MAX)
            .best
            .is_some()
        {
            FrameAnswer::Crowded
        } else {
            FrameAnswer::Weak
        }
    }

    fn foreseen_uncounted(&self) -> FrameAnswer {
        let unwritten = |scan: CoarseScan| scan.window[0].is_nan();
        if unwritten(self.asked(|scan| scan.window.fill(f32::NAN))) {
            let reached = self.asked(|scan| {
                let end = scan.near_frame_start_abs + scan.frame as u64;
                scan.far_env_next_abs = scan.far_env_next_abs.max(end);
                scan.far_env.fill(0.0);
                scan.window.fill(f32::NAN);
            });
            return if unwritten(reached) {
                FrameAnswer::Uncovered
            } else {
                FrameAnswer::Ahead
            };
        }
        let lively = self.asked(|scan| {
            scan.frames = 0;
            for (bin, level) in scan.near_env.iter_mut().enumerate() {
                *level = (bin % 2) as f32;
            }
        });
        if lively.frames == 0 {
            FrameAnswer::Quiet
        } else {
            FrameAnswer::Flat
        }
    }

    /// A copy that is changed and then scores the frame.
    fn asked(&self, change: impl Fn(&mut CoarseScan)) -> CoarseScan {
        let mut copy = self.clone();
        change(&mut copy);
        copy.observe();
        copy
    }

    /// The scores that the full frame would get; none if it would not count.
    pub(crate) fn foreseen_scores(&self) -> Option<Vec<f64>> {
        let asked = self.asked(|scan| scan.frames = 0);
        (asked.frames == 1).then_some(asked.corr)
    }

    /// A frame, or a block of one, is under way.
    pub(crate) fn under_way(&self) -> bool {
        !self.near_env.is_empty() || self.near_count > 0
    }

    /// Whether a sample of this index meets a hole, where the last one taken had the index `last` (request d). The original compares no indices.
    pub(crate) fn meets_hole(&self, last: u64, index: u64) -> bool {
        self.under_way() && last.checked_add(1) != Some(index)
    }

    /// Whether a sample of this index is dropped, unread: no frame goes on with it, and it begins none.
    pub(crate) fn drops(&self, last: u64, index: u64) -> bool {
        let goes_on = self.under_way() && !self.meets_hole(last, index);
        !goes_on && index % self.decimation as u64 != 0
    }

    /// Brings the scan to where a hole leaves it: the one thing that the original does not do itself.
    pub(crate) fn drop_near_frame(&mut self) {
        self.near_env.clear();
        self.near_acc = 0.0;
        self.near_count = 0;
    }

    /// A near sample that is not refused, after a hole if it meets one. Answers whether the frame is full; `last` becomes its index if it is taken.
    pub(crate) fn push_numbered(&mut self, last: &mut u64, sample: f32, index: u64) -> bool {
        if self.meets_hole(*last, index) {
            self.drop_near_frame();
        }
        let full = self.push_near(sample, index);
        if self.under_way() {
            *last = index;
        }
        full
    }

    pub(crate) fn geometry(&self) -> Geometry {
        Geometry {
            decimation: self.decimation,
            span: self.span,
            frame: self.frame,
            ceiling_guard: self.ceiling_guard,
            peak_guard: self.peak_guard,
            envelope: self.far_env.len(),
        }
    }

    pub(crate) fn fields(&self) -> Fields {
        Fields {
            far_blocks: self.far_env_next_abs,
            far_sum: self.far_acc,
            far_count: self.far_count,
            far_pushed: self.far_pushed,
            near_len: self.near_env.len(),
            near_sum: self.near_acc,
            near_count: self.near_count,
            first_bin: self.near_frame_start_abs,
            banked: self.accumulated,
            frames: self.frames,
            last_peak: self.last_corr,
            region: self.best,
            beyond_ceiling: self.beyond_ceiling,
            exhausted: self.exhausted,
        }
    }

    /// The levels of the envelope, of the near frame and of the window.
    pub(crate) fn levels(&self) -> [&[f32]; 3] {
        [&self.far_env, &self.near_env, &self.window]
    }

    /// Both prefixes, the scores and the lag sums.
    pub(crate) fn sums(&self) -> [&[f64]; 4] {
        [
            &self.prefix_sum,
            &self.prefix_sq,
            &self.corr,
            &self.corr_avg,
        ]
    }

    /// A far history of whole blocks.
    pub(crate) fn set_far(&mut self, levels: Vec<f32>, blocks: u64) {
        assert_eq!(levels.len(), self.far_env.len());
        self.far_env = levels;
        self.far_env_next_abs = blocks;
        self.far_pushed = blocks * self.decimation as u64;
        self.far_acc = 0.0;
        self.far_count = 0;
    }

    /// A full near frame.
    pub(crate) fn set_near(&mut self, levels: Vec<f32>, first_bin: u64) {
        assert_eq!(levels.len(), self.frame);
        self.near_env = levels;
        self.near_frame_start_abs = first_bin;
        self.near_acc = 0.0;
        self.near_count = 0;
    }

    /// Every field that is no buffer. The near frame keeps as many levels as it is to have, or gets zeros.
    pub(crate) fn set_fields(&mut self, fields: Fields) {
        self.far_env_next_abs = fields.far_blocks;
        self.far_acc = fields.far_sum;
        self.far_count = fields.far_count;
        self.far_pushed = fields.far_pushed;
        self.near_env.resize(fields.near_len, 0.0);
        self.near_acc = fields.near_sum;
        self.near_count = fields.near_count;
        self.near_frame_start_abs = fields.first_bin;
        self.accumulated = fields.banked;
        self.frames = fields.frames;
        self.last_corr = fields.last_peak;
        self.best = fields.region;
        self.beyond_ceiling = fields.beyond_ceiling;
        self.exhausted = fields.exhausted;
    }

    /// Every buffer: the levels and the sums as `levels` and `sums` give them. One of another length than the original's is left out.
    pub(crate) fn set_buffers(&mut self, levels: [&[f32]; 3], sums: [&[f64]; 4]) {
        fn put<T: Copy>(own: &mut [T], given: &[T]) {
            if own.len() == given.len() {
                own.copy_from_slice(given);
            }
        }
        put(&mut self.far_env, levels[0]);
        self.near_env.clear();
        self.near_env.extend_from_slice(levels[1]);
        put(&mut self.window, levels[2]);
        put(&mut self.prefix_sum, sums[0]);
        put(&mut self.prefix_sq, sums[1]);
        put(&mut self.corr, sums[2]);
        put(&mut self.corr_avg, sums[3]);
    }

    pub(crate) fn set_far_level(&mut self, slot: usize, level: f32) {
        self.far_env[slot] = level;
    }

    pub(crate) fn set_near_level(&mut self, bin: usize, level: f32) {
        self.near_env[bin] = level;
    }

    pub(crate) fn set_lag_sum(&mut self, lag: usize, sum: f64) {
        self.corr_avg[lag] = sum;
    }

    pub(crate) fn set_lag_sums(&mut self, sum: f64) {
        self.corr_avg.fill(sum);
    }

    pub(crate) fn set_counts(&mut self, banked: u32, frames: u32, beyond_ceiling: bool) {
        self.accumulated = banked;
        self.frames = frames;
        self.beyond_ceiling = beyond_ceiling;
    }
}
