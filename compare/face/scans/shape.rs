//! The calls of the scan and the lists that they are lent. The referee and those who make the calls share this and nothing else.

use crate::shape::{self, Shape};

#[derive(Clone, Copy, PartialEq, Eq, Debug)]
pub enum List {
    State,
    Values,
    Envelope,
    Levels,
    Window,
    Prefix,
    Squares,
    Scores,
    LagSums,
    Samples,
}

#[derive(Clone, Copy, PartialEq, Debug)]
pub enum Call {
    New { rate: u32, ceiling: u32 },
    Reset,
    Rearm,
    DiscardNear,
    PushFar,
    PushNear { sample: f32, index: u64 },
    PushNearRun { first: u64 },
    Observe,
    BinSamples,
    CeilingSamples,
    Frames,
    Correlation,
    Region,
    BeyondCeiling,
    Finished,
    Exhausted,
}

use List::*;

pub const OBSERVED: [List; 9] = [
    State, Envelope, Levels, Window, Prefix, Squares, Scores, LagSums, Values,
];

impl shape::Call for Call {
    type List = List;

    fn shape(&self) -> Shape<List> {
        let (name, lent, values): (_, &[List], _) = match self {
            Call::New { .. } => ("new", &[State, Envelope, LagSums], 0),
            Call::Reset => ("reset", &[State, Envelope, LagSums], 0),
            Call::Rearm => ("rearm", &[State, LagSums], 0),
            Call::DiscardNear => ("discard_near", &[State, LagSums], 0),
            Call::PushFar => ("push_far", &[State, Envelope, Samples], 0),
            Call::PushNear { .. } => ("push_near", &[State, Levels], 0),
            Call::PushNearRun { .. } => ("push_near_run", &[State, Levels, Samples, Values], 1),
            Call::Observe => ("observe", &OBSERVED, 3),
            Call::BinSamples => ("bin_samples", &[State, Values], 1),
            Call::CeilingSamples => ("ceiling_samples", &[State, Values], 1),
            Call::Frames => ("frames", &[State, Values], 1),
            Call::Correlation => ("correlation", &[State, Values], 1),
            Call::Region => ("region", &[State, Values], 2),
            Call::BeyondCeiling => ("beyond_ceiling", &[State], 0),
            Call::Finished => ("finished", &[State], 0),
            Call::Exhausted => ("exhausted", &[State], 0),
        };
        Shape { name, lent, values }
    }
}
