//! The fine stage: which frames count, and what a correlation's peak means. The host runs the transform.

use crate::answers::{answer, done, flag, report, unknown, Refusal};
use crate::face::fine as face;

pub(crate) const WORDS: usize = 14;
const PEAK_VALUES: usize = 4;

/// Length of the host's transform; 0 outside the table.
pub const fn transform_len(span: u32) -> usize {
    if span < 1 || span > 32_768 {
        return 0;
    }
    let len = (2 * span).next_power_of_two();
    if len < 256 {
        256
    } else {
        len as usize
    }
}

/// Length of the near and of the retained frame; 0 outside the table, as of all lengths here.
pub const fn frame_len(span: u32) -> usize {
    match transform_len(span) {
        0 => 0,
        len => len - span as usize,
    }
}

/// Length of the far window.
pub const fn window_len(span: u32) -> usize {
    transform_len(span)
}

/// Length of the correlation, at least.
pub const fn correlation_len(span: u32) -> usize {
    match transform_len(span) {
        0 => 0,
        _ => span as usize + 1,
    }
}

/// What became of a near sample.
#[derive(Clone, Copy, PartialEq, Eq, Debug)]
pub enum FineTaking {
    /// Taken.
    Taken,
    /// Taken as the frame's last: [`Fine::gate`] is due.
    Full,
}

/// Whether a full frame counts.
#[derive(Clone, Copy, PartialEq, Eq, Debug)]
pub enum Gate {
    /// The far window is missing its head, or too much of its tail.
    Skipped,
    /// One side carries no energy.
    Silent,
    /// The first frame at this origin; no peak is asked for yet.
    First,
    /// Correlate, then [`Fine::peak`].
    Later,
}

/// What the gate says of the retained frame.
#[derive(Clone, Copy, PartialEq, Eq, Debug)]
pub enum Rescan {
    /// There is none.
    NothingRetained,
    /// The far window is missing its head, or too much of its tail.
    Skipped,
    /// One side carries no energy.
    Silent,
    /// Correlate, then [`Fine::peak`].
    Taken,
}

/// Where a peak stands in the correlation: the two differ only in a tie.
#[derive(Clone, Copy, PartialEq, Eq, Debug)]
pub struct Positions {
    /// The first place of its height.
    pub first: u64,
    /// The last one.
    pub last: u64,
}

/// What a search found.
#[derive(Clone, Copy, PartialEq, Debug)]
pub struct Peak {
    /// Whether it counts or not.
    pub at: Positions,
    /// A peak that counts.
    pub candidate: Option<Candidate>,
}

/// A correlation's peak that counts.
#[derive(Clone, Copy, PartialEq, Debug)]
pub struct Candidate {
    /// In samples, by the first position.
    pub delay: u64,
    /// Of the peak to the mean.
    pub ratio: f64,
}

/// A fine stage.
#[derive(Debug)]
pub struct Fine<'m> {
    state: [u64; WORDS],
    near: &'m mut [f32],
    retained: &'m mut [f32],
}

impl<'m> Fine<'m> {
    /// Searches delays 0 to span. Both lists have [`frame_len`] elements.
    pub fn new(near: &'m mut [f32], retained: &'m mut [f32], span: u32) -> Result<Fine<'m>, Refusal> {
        let mut state = [0; WORDS];
        done(face::new(&mut state, span))?;
        Ok(Fine { state, near, retained })
    }

    /// Drops the near frame under way and the count of frames taken.
    pub fn restart(&mut self) -> Result<(), Refusal> {
        done(face::restart(&mut self.state))
    }

    /// Searches from another origin on.
    pub fn relocate(&mut self, origin: u64) -> Result<(), Refusal> {
        done(face::relocate(&mut self.state, origin))
    }

    /// The state as it was made.
    pub fn reset(&mut self) -> Result<(), Refusal> {
        done(face::reset(&mut self.state))
    }

    /// One near sample.
    pub fn push_near(&mut self, sample: f32) -> Result<FineTaking, Refusal> {
        match answer(face::push_near(&mut self.state, self.near, sample))? {
            0 => Ok(FineTaking::Taken),
            1 => Ok(FineTaking::Full),
            case => unknown(case),
        }
    }

    /// A run of near samples, up to the one that completes the frame: what became of them, and how many were taken.
    pub fn push_near_run(&mut self, samples: &[f32]) -> Result<(FineTaking, usize), Refusal> {
        let mut values = [0; 1];
        let number = face::push_near_run(&mut self.state, self.near, samples, &mut values);
        match answer(number)? {
            0 => Ok((FineTaking::Taken, values[0] as usize)),
            1 => Ok((FineTaking::Full, values[0] as usize)),
            case => unknown(case),
        }
    }

    /// Says whether the full near frame counts, and consumes it.
    pub fn gate(&mut self, far: &[f32], missing_head: u64, missing_tail: u64) -> Result<Gate, Refusal> {
        let number = face::gate(&mut self.state, self.near, self.retained, far, missing_head, missing_tail);
        match answer(number)? {
            0 => Ok(Gate::Skipped),
            1 => Ok(Gate::Silent),
            2 => Ok(Gate::First),
            3 => Ok(Gate::Later),
            case => unknown(case),
        }
    }

    /// The same gate on the retained frame.
    pub fn rescan(&self, far: &[f32], missing_head: u64, missing_tail: u64) -> Result<Rescan, Refusal> {
        match answer(face::rescan(&self.state, self.retained, far, missing_head, missing_tail))? {
            0 => Ok(Rescan::NothingRetained),
            1 => Ok(Rescan::Skipped),
            2 => Ok(Rescan::Silent),
            3 => Ok(Rescan::Taken),
            case => unknown(case),
        }
    }

    /// Searches entries 0 to span of a correlation for a candidate.
    pub fn peak(&mut self, correlation: &[f32]) -> Result<Peak, Refusal> {
        let mut values = [0; PEAK_VALUES];
        let found = flag(face::peak(&mut self.state, correlation, &mut values))?;
        let ratio = f64::from_bits(values[2]);
        let at = Positions { first: values[1], last: values[3] };
        Ok(Peak { at, candidate: found.then_some(Candidate { delay: values[0], ratio }) })
    }

    /// Samples in a frame.
    pub fn frame_len(&self) -> Result<u64, Refusal> {
        report(|values| face::state_frame_len(&self.state, values))
    }

    /// Samples in the far window.
    pub fn window_len(&self) -> Result<u64, Refusal> {
        report(|values| face::state_window_len(&self.state, values))
    }

    /// The largest delay searched, from the origin on.
    pub fn max_delay(&self) -> Result<u64, Refusal> {
        report(|values| face::max_delay(&self.state, values))
    }

    /// How far before the near frame the far window begins.
    pub fn window_back_off(&self) -> Result<u64, Refusal> {
        report(|values| face::window_back_off(&self.state, values))
    }

    /// The first and the last delay searched.
    pub fn search_range(&self) -> Result<(u64, u64), Refusal> {
        let mut values = [0; 2];
        done(face::search_range(&self.state, &mut values))?;
        Ok((values[0], values[1]))
    }

    /// Frames taken at this origin.
    pub fn frames(&self) -> Result<u64, Refusal> {
        report(|values| face::frames(&self.state, values))
    }

    /// Frames skipped in all.
    pub fn skipped(&self) -> Result<u64, Refusal> {
        report(|values| face::skipped(&self.state, values))
    }

    /// The last scan's ratio of peak to mean.
    pub fn last_scan_ratio(&self) -> Result<f64, Refusal> {
        report(|values| face::last_scan_ratio(&self.state, values)).map(f64::from_bits)
    }

    /// Where the last scan's peak stood, if there was a scan.
    pub fn last_scan_peak_at(&self) -> Result<Option<Positions>, Refusal> {
        let mut values = [0; 2];
        let found = flag(face::last_scan_peak_at(&self.state, &mut values))?;
        Ok(found.then_some(Positions { first: values[0], last: values[1] }))
    }

    /// The last scan's origin.
    pub fn last_scan_origin(&self) -> Result<u64, Refusal> {
        report(|values| face::last_scan_origin(&self.state, values))
    }

    /// Scans in all.
    pub fn scans(&self) -> Result<u64, Refusal> {
        report(|values| face::scans(&self.state, values))
    }
}
