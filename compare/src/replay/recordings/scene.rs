//! A scan's recording under way.

use super::super::maker::Maker;
use crate::random::Random;
use crate::signal::Signal;

/// A scan's recording under way: far samples laid bin by bin, near frames set anywhere.
pub struct Scene {
    pub maker: Maker,
    pub block: u64,
    pub frame: u64,
    pub span: u64,
    pub far: Signal,
    pub laid: u64,
}

impl Scene {
    pub fn new(random: &mut Random, rate: u32, ceiling: u32) -> Scene {
        let maker = Maker::new(rate, ceiling);
        let (block, frame, span) = maker.geometry();
        let far = Signal::speech(random, (block * 5) as u16);
        Scene {
            maker,
            block,
            frame,
            span,
            far,
            laid: 0,
        }
    }

    /// More bins of the far signal.
    pub fn lay(&mut self, bins: u64) {
        self.maker
            .far_signal(self.far, self.laid * self.block, bins * self.block);
        self.laid += bins;
    }

    /// A near frame of any signal.
    pub fn near(&mut self, first_bin: u64, signal: Signal, place: u64) {
        let first = first_bin * self.block;
        self.maker
            .near_signal(first, signal, place, self.frame * self.block);
    }

    /// A near frame that repeats the far signal so many samples later, softer.
    pub fn echo(&mut self, first_bin: u64, delay: u64) {
        let softer = Signal {
            base: self.far.base - 3,
            ..self.far
        };
        self.near(first_bin, softer, first_bin * self.block - delay);
    }

    /// Enough far signal for a window that begins at bin 0.
    pub fn lay_window(&mut self) {
        let bins = self.span + self.frame;
        self.lay(bins);
    }

    pub fn echoes(&mut self, count: u64, delay: u64) {
        for _ in 0..count {
            self.echo(self.span, delay);
        }
    }

    /// Near frames of signals that have nothing to do with the far one.
    pub fn others(&mut self, random: &mut Random, count: u64) {
        for _ in 0..count {
            let signal = Signal::speech(random, self.block as u16);
            self.near(self.span, signal, 0);
        }
    }
}
