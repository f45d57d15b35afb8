//! The calls of a pair and the lists that they are lent.

use crate::scans::shape::Call as ScanCall;
use crate::shape::{self, Shape};

#[derive(Clone, Copy, PartialEq, Eq, Debug)]
pub enum List {
    State,
    Values,
    Envelope,
    FirstLevels,
    SecondLevels,
    Window,
    Prefix,
    Squares,
    Scores,
    FirstLagSums,
    SecondLagSums,
    Samples,
}

/// A call of the scan: on both channels at once, or on the one whose number it names.
#[derive(Clone, Copy, PartialEq, Debug)]
pub enum Call {
    Common(ScanCall),
    Channel(u32, ScanCall),
}

use List::*;

const LEVELS: [&[List]; 2] = [&[State, FirstLevels], &[State, SecondLevels]];
const LAG_SUMS: [&[List]; 2] = [&[State, FirstLagSums], &[State, SecondLagSums]];
const RUN: [&[List]; 2] = [
    &[State, FirstLevels, Samples, Values],
    &[State, SecondLevels, Samples, Values],
];
const OBSERVED: [&[List]; 2] = [
    &[
        State,
        Envelope,
        FirstLevels,
        Window,
        Prefix,
        Squares,
        Scores,
        FirstLagSums,
        Values,
    ],
    &[
        State,
        Envelope,
        SecondLevels,
        Window,
        Prefix,
        Squares,
        Scores,
        SecondLagSums,
        Values,
    ],
];

impl Call {
    pub fn scan_call(&self) -> &ScanCall {
        match self {
            Call::Common(call) | Call::Channel(_, call) => call,
        }
    }

    /// Which channel's lists it is lent. A number that names none is lent either's.
    pub fn lists_of(&self) -> usize {
        match self {
            Call::Common(_) => 0,
            Call::Channel(number, _) => (number & 1) as usize,
        }
    }
}

impl shape::Call for Call {
    type List = List;

    fn shape(&self) -> Shape<List> {
        let own = self.lists_of();
        let Shape { name, values, .. } = self.scan_call().shape();
        let lent: &[List] = match self.scan_call() {
            ScanCall::New { .. } | ScanCall::Reset => {
                &[State, Envelope, FirstLagSums, SecondLagSums]
            }
            ScanCall::PushFar => &[State, Envelope, Samples],
            ScanCall::Rearm | ScanCall::DiscardNear => LAG_SUMS[own],
            ScanCall::PushNear { .. } => LEVELS[own],
            ScanCall::PushNearRun { .. } => RUN[own],
            ScanCall::Observe => OBSERVED[own],
            _ if values > 0 => &[State, Values],
            _ => &[State],
        };
        Shape { name, lent, values }
    }
}
