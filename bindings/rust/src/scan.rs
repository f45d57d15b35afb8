//! The coarse scan: in which millisecond or so the echo lives, over the whole ceiling.

use crate::answers::{answer, flag, unknown, Refusal};

pub(crate) const WORDS: usize = 25;

const fn per_ms(ms: u64, rate: u64) -> u64 {
    let whole = ms * rate / 1000;
    if whole == 0 {
        1
    } else {
        whole
    }
}

/// Bins in a near frame and in the span of delays; 0 outside the table.
const fn bins(rate: u32, ceiling: u32) -> (usize, usize) {
    if rate < 8_000 || rate > 192_000 || ceiling < 1 || ceiling > 4_000 {
        return (0, 0);
    }
    let bin_rate = (rate / ((rate + 500) / 1000)) as u64;
    (per_ms(256, bin_rate) as usize, per_ms(ceiling as u64, bin_rate) as usize)
}

const fn if_allowed(span: usize, len: usize) -> usize {
    if span == 0 {
        0
    } else {
        len
    }
}

/// Length of [`ScanMemory::envelope`]; 0 outside the table, as of all lengths here.
pub const fn envelope_len(rate: u32, ceiling: u32) -> usize {
    let (frame, span) = bins(rate, ceiling);
    if_allowed(span, frame + span + 4000)
}

/// Length of [`ScanMemory::levels`].
pub const fn levels_len(rate: u32, ceiling: u32) -> usize {
    bins(rate, ceiling).0
}

/// Length of [`ScanMemory::window`].
pub const fn window_len(rate: u32, ceiling: u32) -> usize {
    let (frame, span) = bins(rate, ceiling);
    frame + span
}

/// Length of [`ScanMemory::prefix`] and of [`ScanMemory::squares`].
pub const fn prefix_len(rate: u32, ceiling: u32) -> usize {
    let (frame, span) = bins(rate, ceiling);
    if_allowed(span, frame + span + 1)
}

/// Length of [`ScanMemory::scores`] and of [`ScanMemory::lag_sums`].
pub const fn lags_len(rate: u32, ceiling: u32) -> usize {
    let (_, span) = bins(rate, ceiling);
    if_allowed(span, span + 1)
}

/// The lists of one scan. Another length than the settings give is refused.
#[derive(Debug)]
pub struct ScanMemory<'m> {
    /// Far levels, kept.
    pub envelope: &'m mut [f32],
    /// Near levels, kept.
    pub levels: &'m mut [f32],
    /// Sums over the frames banked, kept.
    pub lag_sums: &'m mut [f64],
    /// Scratch of a scoring.
    pub window: &'m mut [f32],
    /// Scratch of a scoring.
    pub prefix: &'m mut [f64],
    /// Scratch of a scoring.
    pub squares: &'m mut [f64],
    /// Scratch of a scoring.
    pub scores: &'m mut [f64],
}

/// What became of a near sample.
#[derive(Clone, Copy, PartialEq, Eq, Debug)]
pub enum Taking {
    /// The scan is finished.
    Ignored,
    /// No frame is under way, and none begins at this index.
    Dropped,
    /// Taken.
    Taken,
    /// Taken as the frame's last: [`Scan::observe`] is due.
    Full,
}

/// A scored frame.
#[derive(Clone, Copy, PartialEq, Debug)]
pub struct Scored {
    /// What it said.
    pub frame: Frame,
    /// How many products its lag sums took: 0 up to [`Frame::Flat`], at most lags times levels.
    pub products: u64,
}

/// What a scored frame said.
#[derive(Clone, Copy, PartialEq, Debug)]
pub enum Frame {
    /// The far history does not reach back over the window.
    Uncovered,
    /// More than a quarter of a frame is not yet written on the far side.
    Ahead,
    /// Nothing to hear on the far side.
    Quiet,
    /// The near side does not vary.
    Flat,
    /// Counted; fewer than four frames are summed.
    Banked {
        /// The frame's own peak.
        peak: f32,
    },
    /// The fourth; the averaged peak is below 0.25.
    Weak,
    /// The fourth; the peak stands at the ceiling.
    Ceiling,
    /// The fourth; another peak is too high.
    Crowded,
    /// The fourth; here the echo lives.
    Region(Region),
}

/// Where the echo lives.
#[derive(Clone, Copy, PartialEq, Debug)]
pub struct Region {
    /// In samples.
    pub delay: u64,
    /// Of the averaged peak.
    pub correlation: f64,
}

impl Taking {
    pub(crate) fn of(number: u32) -> Result<Taking, Refusal> {
        match answer(number)? {
            0 => Ok(Taking::Ignored),
            1 => Ok(Taking::Dropped),
            2 => Ok(Taking::Taken),
            3 => Ok(Taking::Full),
            case => unknown(case),
        }
    }
}

impl Scored {
    pub(crate) fn of(number: u32, values: [u64; 3]) -> Result<Scored, Refusal> {
        let frame = match answer(number)? {
            0 => Frame::Uncovered,
            1 => Frame::Ahead,
            2 => Frame::Quiet,
            3 => Frame::Flat,
            4 => Frame::Banked { peak: f32::from_bits(values[0] as u32) },
            5 => Frame::Weak,
            6 => Frame::Ceiling,
            7 => Frame::Crowded,
            8 => Frame::Region(Region::at([values[0], values[1]])),
            case => return unknown(case),
        };
        Ok(Scored { frame, products: values[2] })
    }
}

impl Region {
    fn at(values: [u64; 2]) -> Region {
        Region { delay: values[0], correlation: f64::from_bits(values[1]) }
    }

    pub(crate) fn of(number: u32, values: [u64; 2]) -> Result<Option<Region>, Refusal> {
        let found = flag(number)?;
        Ok(found.then(|| Region::at(values)))
    }
}

/// A coarse scan.
#[derive(Debug)]
pub struct Scan<'m> {
    state: [u64; WORDS],
    memory: ScanMemory<'m>,
}

/// The calls of a scan, for each part of the face that has them.
macro_rules! scan_calls {
    ($part:ident, $face:ident) => {
        impl<'m> $part<'m> {
            /// A new scan over this memory, of which envelope and lag sums are cleared.
            pub fn new(memory: ScanMemory<'m>, rate: u32, ceiling: u32) -> Result<$part<'m>, Refusal> {
                let mut scan = $part { state: [0; $crate::scan::WORDS], memory };
                let m = &mut scan.memory;
                $crate::answers::done($crate::face::$face::new(&mut scan.state, m.envelope, m.lag_sums, rate, ceiling))?;
                Ok(scan)
            }

            /// The scan as it was made.
            pub fn reset(&mut self) -> Result<(), Refusal> {
                $crate::answers::done($crate::face::$face::reset(&mut self.state, self.memory.envelope, self.memory.lag_sums))
            }

            /// Searches anew on the same far history.
            pub fn rearm(&mut self) -> Result<(), Refusal> {
                $crate::answers::done($crate::face::$face::rearm(&mut self.state, self.memory.lag_sums))
            }

            /// Drops the near frame under way and the frames banked, where the near stream was cut.
            pub fn discard_near(&mut self) -> Result<(), Refusal> {
                $crate::answers::done($crate::face::$face::discard_near(&mut self.state, self.memory.lag_sums))
            }

            /// Far samples in played order.
            pub fn push_far(&mut self, samples: &[f32]) -> Result<(), Refusal> {
                $crate::answers::done($crate::face::$face::push_far(&mut self.state, self.memory.envelope, samples))
            }

            /// One near sample with its far index. An index that is not the last one plus one drops the frame under way.
            pub fn push_near(&mut self, sample: f32, index: u64) -> Result<Taking, Refusal> {
                Taking::of($crate::face::$face::push_near(&mut self.state, self.memory.levels, sample, index))
            }

            /// A run of near samples with its first index, up to the one that completes the frame: what became of them, and how many were taken.
            pub fn push_near_run(&mut self, samples: &[f32], first: u64) -> Result<(Taking, usize), Refusal> {
                let mut values = [0; 1];
                let taking = Taking::of($crate::face::$face::push_near_run(&mut self.state, self.memory.levels, samples, first, &mut values))?;
                Ok((taking, values[0] as usize))
            }

            /// Scores the full near frame, and consumes it.
            pub fn observe(&mut self) -> Result<Scored, Refusal> {
                let mut values = [0; 3];
                let m = &mut self.memory;
                let number = $crate::face::$face::observe(
                    &mut self.state, m.envelope, m.levels, m.window, m.prefix, m.squares, m.scores, m.lag_sums, &mut values,
                );
                Scored::of(number, values)
            }

            /// The region, if one was found.
            pub fn region(&self) -> Result<Option<Region>, Refusal> {
                let mut values = [0; 2];
                Region::of($crate::face::$face::region(&self.state, &mut values), values)
            }

            /// Samples in a bin.
            pub fn bin_samples(&self) -> Result<u64, Refusal> {
                $crate::answers::report(|values| $crate::face::$face::bin_samples(&self.state, values))
            }

            /// The ceiling in samples.
            pub fn ceiling_samples(&self) -> Result<u64, Refusal> {
                $crate::answers::report(|values| $crate::face::$face::ceiling_samples(&self.state, values))
            }

            /// Frames counted.
            pub fn frames(&self) -> Result<u64, Refusal> {
                $crate::answers::report(|values| $crate::face::$face::frames(&self.state, values))
            }

            /// The region's correlation if there is one, else the last frame's peak.
            pub fn correlation(&self) -> Result<f32, Refusal> {
                $crate::answers::report(|values| $crate::face::$face::correlation(&self.state, values)).map(|bits| f32::from_bits(bits as u32))
            }

            /// Whether a peak stood at the ceiling.
            pub fn beyond_ceiling(&self) -> Result<bool, Refusal> {
                $crate::answers::flag($crate::face::$face::beyond_ceiling(&self.state))
            }

            /// Whether the scan has a region or has given up.
            pub fn finished(&self) -> Result<bool, Refusal> {
                $crate::answers::flag($crate::face::$face::finished(&self.state))
            }

            /// Whether it has given up.
            pub fn exhausted(&self) -> Result<bool, Refusal> {
                $crate::answers::flag($crate::face::$face::exhausted(&self.state))
            }
        }
    };
}
pub(crate) use scan_calls;

scan_calls!(Scan, scan);
