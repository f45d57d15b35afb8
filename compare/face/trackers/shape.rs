//! The calls of the tracker and the lists that they are lent.

use crate::shape::{self, Shape};

#[derive(Clone, Copy, PartialEq, Debug)]
pub enum List {
    State,
    Values,
}

#[derive(Clone, Copy, PartialEq, Debug)]
pub enum Call {
    New(u32),
    Cycle(Cycle),
    Discontinuity,
    JumpCycles,
    LongestRun,
    Suspect,
    Quiescent,
}

#[derive(Clone, Copy, PartialEq, Debug)]
pub struct Cycle {
    pub alignment: u64,
    pub kind: u32,
    pub delay: u64,
}

impl shape::Call for Call {
    type List = List;

    fn shape(&self) -> Shape<List> {
        use List::*;
        let (name, lent, values): (_, &[List], _) = match self {
            Call::New(_) => ("new", &[State], 0),
            Call::Cycle(_) => ("on_cycle", &[State, Values], 1),
            Call::Discontinuity => ("on_discontinuity", &[State], 0),
            Call::JumpCycles => ("jump_cycles", &[State, Values], 1),
            Call::LongestRun => ("longest_run", &[State, Values], 1),
            Call::Suspect => ("suspect", &[State], 0),
            Call::Quiescent => ("quiescent", &[State], 0),
        };
        Shape { name, lent, values }
    }
}
