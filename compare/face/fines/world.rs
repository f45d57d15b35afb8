//! The fine stage as a host holds it.

use super::shape::{Call, List};
use crate::lent::Lent;
use crate::lists::lists;
use crate::rules::Lengths;

pub const WORDS: usize = 14;

pub struct World {
    pub state: Lent<u64>,
    pub values: Lent<u64>,
    pub near: Lent<f32>,
    pub retained: Lent<f32>,
    pub far: Lent<f32>,
    pub correlation: Lent<f32>,
    pub samples: Lent<f32>,
}

lists!(World, Call, List:
    State state, Values values, Near near, Retained retained, Far far, Correlation correlation, Samples samples);

impl World {
    /// A new state, as the scope paper has it.
    pub fn new(span: u32) -> World {
        World::with_more(span, 0)
    }

    /// With a correlation that is longer than it need be.
    pub fn with_more(span: u32, more: u64) -> World {
        let span = span as u64;
        let lengths = Lengths::of(span);
        let mut state = [0; WORDS];
        state[..3].copy_from_slice(&[span, lengths.transform, lengths.frame]);
        let samples = |len: u64| Lent::new(len as usize, 0.0_f32);
        World {
            state: Lent::of(&state),
            values: Lent::new(1, 0),
            near: samples(lengths.frame),
            retained: samples(lengths.frame),
            far: samples(lengths.window),
            correlation: samples(span + 1 + more),
            samples: samples(0),
        }
    }

    pub fn word(&self, at: usize) -> u64 {
        self.state.all()[at]
    }

    pub fn set_word(&mut self, at: usize, word: u64) {
        self.state.all_mut()[at] = word;
    }

    /// Whether the lists are those of the state's span: a making may have been for another one.
    pub fn fits(&self) -> bool {
        let span = self.far.all().len() - self.near.all().len();
        self.word(0) == span as u64
    }
}
