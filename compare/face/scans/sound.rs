//! What is played in a stream.

use crate::choices;
use crate::random::Random;

/// Noise in loud and soft stretches, with all of it that was played so far.
pub struct Sound {
    rate: u64,
    loud: bool,
    pub played: Vec<f32>,
}

impl Sound {
    pub fn new(rate: u64) -> Sound {
        Sound {
            rate,
            loud: false,
            played: Vec::new(),
        }
    }

    /// The next samples, which are not played yet.
    pub fn next(&mut self, random: &mut Random, count: u64) -> Vec<f32> {
        let sample = |_| {
            if random.once_in(self.rate / 50) {
                self.loud = !self.loud;
            }
            choices::sample(random) * if self.loud { 1.0 } else { 0.05 }
        };
        (0..count).map(sample).collect()
    }

    /// What a microphone hears at an index: the sound as it was played `delay` samples before, softer.
    pub fn heard(&self, index: u64, delay: u64) -> f32 {
        let played = self.played.get((index - delay.min(index)) as usize);
        played.copied().unwrap_or(0.0) * 0.7
    }
}
