//! The pair: two microphones, one loudspeaker. One far history serves two near scans, and what one of them is fed never shows in the other.

use crate::answers::{done, flag, report, Refusal};
use crate::face::pair as face;
use crate::scan::{Region, Scored, Taking};

pub(crate) const WORDS: usize = 38;

/// Which of the two microphones. The core refuses any other number; here there is none.
#[derive(Clone, Copy, PartialEq, Eq, Debug, Hash)]
pub enum Channel {
    /// Channel 0.
    First,
    /// Channel 1.
    Second,
}

/// The lists of one pair, of the lengths that [`crate::scan`] gives. Another length is refused.
#[derive(Debug)]
pub struct PairMemory<'m> {
    /// Far levels, kept for both channels.
    pub envelope: &'m mut [f32],
    /// Near levels of each channel, kept.
    pub levels: [&'m mut [f32]; 2],
    /// Sums over the frames banked of each channel, kept.
    pub lag_sums: [&'m mut [f64]; 2],
    /// Scratch of a scoring.
    pub window: &'m mut [f32],
    /// Scratch of a scoring.
    pub prefix: &'m mut [f64],
    /// Scratch of a scoring.
    pub squares: &'m mut [f64],
    /// Scratch of a scoring.
    pub scores: &'m mut [f64],
}

/// Two coarse scans over one far history.
#[derive(Debug)]
pub struct Pair<'m> {
    state: [u64; WORDS],
    memory: PairMemory<'m>,
}

impl<'m> Pair<'m> {
    /// A new pair over this memory, of which envelope and lag sums are cleared.
    pub fn new(memory: PairMemory<'m>, rate: u32, ceiling: u32) -> Result<Pair<'m>, Refusal> {
        let mut pair = Pair { state: [0; WORDS], memory };
        let m = &mut pair.memory;
        let [first, second] = &mut m.lag_sums;
        done(face::new(&mut pair.state, m.envelope, first, second, rate, ceiling))?;
        Ok(pair)
    }

    /// The pair as it was made: the numbering of both channels begins anew.
    pub fn reset(&mut self) -> Result<(), Refusal> {
        let [first, second] = &mut self.memory.lag_sums;
        done(face::reset(&mut self.state, self.memory.envelope, first, second))
    }

    /// Far samples in played order, for both channels.
    pub fn push_far(&mut self, samples: &[f32]) -> Result<(), Refusal> {
        done(face::push_far(&mut self.state, self.memory.envelope, samples))
    }

    /// One near sample of a channel with its far index. An index that is not the channel's last one plus one drops its frame under way.
    pub fn push_near(&mut self, channel: Channel, sample: f32, index: u64) -> Result<Taking, Refusal> {
        let levels = &mut self.memory.levels[channel as usize];
        Taking::of(face::push_near(&mut self.state, channel as u32, levels, sample, index))
    }

    /// A run of near samples of a channel with its first index, up to the one that completes the frame: what became of them, and how many were taken.
    pub fn push_near_run(&mut self, channel: Channel, samples: &[f32], first: u64) -> Result<(Taking, usize), Refusal> {
        let mut values = [0; 1];
        let levels = &mut self.memory.levels[channel as usize];
        let taking = Taking::of(face::push_near_run(&mut self.state, channel as u32, levels, samples, first, &mut values))?;
        Ok((taking, values[0] as usize))
    }

    /// Scores a channel's full near frame, and consumes it.
    pub fn observe(&mut self, channel: Channel) -> Result<Scored, Refusal> {
        let mut values = [0; 3];
        let m = &mut self.memory;
        let (levels, lag_sums) = (&m.levels[channel as usize], &mut m.lag_sums[channel as usize]);
        let number = face::observe(
            &mut self.state, channel as u32, m.envelope, levels, m.window, m.prefix, m.squares, m.scores, lag_sums, &mut values,
        );
        Scored::of(number, values)
    }

    /// Searches anew on a channel, on the same far history.
    pub fn rearm(&mut self, channel: Channel) -> Result<(), Refusal> {
        done(face::rearm(&mut self.state, channel as u32, self.memory.lag_sums[channel as usize]))
    }

    /// Drops a channel's near frame under way and its frames banked, where its stream was cut.
    pub fn discard_near(&mut self, channel: Channel) -> Result<(), Refusal> {
        done(face::discard_near(&mut self.state, channel as u32, self.memory.lag_sums[channel as usize]))
    }

    /// A channel's region, if one was found.
    pub fn region(&self, channel: Channel) -> Result<Option<Region>, Refusal> {
        let mut values = [0; 2];
        Region::of(face::region(&self.state, channel as u32, &mut values), values)
    }

    /// Frames that a channel counted.
    pub fn frames(&self, channel: Channel) -> Result<u64, Refusal> {
        report(|values| face::frames(&self.state, channel as u32, values))
    }

    /// The correlation of a channel's region if there is one, else its last frame's peak.
    pub fn correlation(&self, channel: Channel) -> Result<f32, Refusal> {
        report(|values| face::correlation(&self.state, channel as u32, values)).map(|bits| f32::from_bits(bits as u32))
    }

    /// Whether a peak of a channel stood at the ceiling.
    pub fn beyond_ceiling(&self, channel: Channel) -> Result<bool, Refusal> {
        flag(face::beyond_ceiling(&self.state, channel as u32))
    }

    /// Whether a channel has a region or has given up.
    pub fn finished(&self, channel: Channel) -> Result<bool, Refusal> {
        flag(face::finished(&self.state, channel as u32))
    }

    /// Whether a channel has given up.
    pub fn exhausted(&self, channel: Channel) -> Result<bool, Refusal> {
        flag(face::exhausted(&self.state, channel as u32))
    }

    /// Samples in a bin.
    pub fn bin_samples(&self) -> Result<u64, Refusal> {
        report(|values| face::bin_samples(&self.state, values))
    }

    /// The ceiling in samples.
    pub fn ceiling_samples(&self) -> Result<u64, Refusal> {
        report(|values| face::ceiling_samples(&self.state, values))
    }
}
