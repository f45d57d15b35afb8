//! The far reference ring. Its samples are f32 patterns of any kind, NaNs too.

use crate::answers::{done, flag, report, Refusal};
use crate::face::ring as face;

pub(crate) const WORDS: usize = 1;

/// A ring over a buffer, whose length is its capacity.
#[derive(Debug)]
pub struct Ring<'m> {
    state: [u64; WORDS],
    buf: &'m mut [u32],
}

/// How many samples of a window are missing.
#[derive(Clone, Copy, PartialEq, Eq, Debug)]
pub struct Missing {
    /// Before the stream's first sample, or overwritten.
    pub head: u64,
    /// Not pushed yet.
    pub tail: u64,
}

fn missing(call: impl FnOnce(&mut [u64]) -> u32) -> Result<Missing, Refusal> {
    let mut values = [0; 2];
    done(call(&mut values))?;
    Ok(Missing { head: values[0], tail: values[1] })
}

impl<'m> Ring<'m> {
    /// A ring over this buffer, of length 1 or more.
    pub fn new(buf: &'m mut [u32]) -> Result<Ring<'m>, Refusal> {
        let mut state = [0; WORDS];
        done(face::new(&mut state, buf))?;
        Ok(Ring { state, buf })
    }

    /// Appends patterns, the oldest kept being overwritten.
    pub fn push(&mut self, samples: &[u32]) -> Result<(), Refusal> {
        done(face::push(&mut self.state, self.buf, samples))
    }

    /// Appends floats. Every NaN is stored as 0x7FC00000.
    pub fn push_floats(&mut self, samples: &[f32]) -> Result<(), Refusal> {
        done(face::push_floats(&mut self.state, self.buf, samples))
    }

    /// As it was made.
    pub fn clear(&mut self) -> Result<(), Refusal> {
        done(face::clear(&mut self.state, self.buf))
    }

    /// The sample of an absolute index, if it is kept.
    pub fn get(&self, at: u64) -> Result<Option<f32>, Refusal> {
        let mut values = [0];
        let kept = flag(face::get(&self.state, self.buf, at, &mut values))?;
        Ok(kept.then(|| f32::from_bits(self.buf[values[0] as usize])))
    }

    /// Reads the window that begins `back` samples before absolute index `at`, with 0 where no sample is kept: how many are missing.
    pub fn window(&self, at: u64, back: u64, window: &mut [u32]) -> Result<Missing, Refusal> {
        missing(|values| face::window(&self.state, self.buf, at, back, window, values))
    }

    /// The same window as floats. A NaN is read as a NaN of any payload.
    pub fn window_floats(&self, at: u64, back: u64, window: &mut [f32]) -> Result<Missing, Refusal> {
        missing(|values| face::window_floats(&self.state, self.buf, at, back, window, values))
    }

    /// The absolute index of the next sample.
    pub fn next_abs(&self) -> Result<u64, Refusal> {
        report(|values| face::next_abs(&self.state, self.buf, values))
    }

    /// How many samples are kept at most.
    pub fn capacity(&self) -> Result<u64, Refusal> {
        report(|values| face::capacity(&self.state, self.buf, values))
    }

    /// Samples overwritten since the making or the last clearing.
    pub fn dropped(&self) -> Result<u64, Refusal> {
        report(|values| face::dropped(&self.state, self.buf, values))
    }
}
