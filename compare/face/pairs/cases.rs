//! The cases of the pair that have a name. Channel 0 has words 12 to 24, channel 1 words 25 to 37.

use super::shape::Call::{self, Channel, Common};
use super::shape::List::{Envelope, FirstLagSums, FirstLevels, SecondLagSums, State, Values};
use crate::changes::{lend, set, Change};
use crate::course::Case;
use crate::scans::shape::Call as ScanCall;

/// A signalling NaN.
const DOUBLE: u64 = 0x7ff0_0000_0000_0001;

const fn near(sample: f32, index: u64) -> ScanCall {
    ScanCall::PushNear { sample, index }
}

const fn making(rate: u32) -> Call {
    Common(ScanCall::New { rate, ceiling: 1 })
}

const fn case(
    name: &'static str,
    changes: &'static [Change<super::shape::List>],
    call: Call,
    answer: (u32, &'static [u64]),
) -> Case<Call> {
    Case {
        name,
        changes,
        call,
        answer,
    }
}

pub const CASES: &[Case<Call>] = &[
    case(
        "channel 2, no word of a state, 2 values",
        &[lend(State, 0), lend(Values, 2)],
        Channel(2, ScanCall::Frames),
        (11, &[]),
    ),
    case(
        "channel 2 of a state of rate 0, levels one short",
        &[set(State, 0, 0), lend(FirstLevels, 255)],
        Channel(2, near(f32::NAN, u64::MAX)),
        (11, &[]),
    ),
    case(
        "the largest channel number, of a broken state",
        &[set(State, 36, 2)],
        Channel(u32::MAX, ScanCall::Exhausted),
        (11, &[]),
    ),
    case(
        "a state of 25 words",
        &[lend(State, 25)],
        Channel(0, ScanCall::Frames),
        (2, &[]),
    ),
    case(
        "a making for rate 7,999 is lent 37 words",
        &[lend(State, 37)],
        making(7_999),
        (1, &[]),
    ),
    case(
        "a making is lent 37 words",
        &[lend(State, 37)],
        making(8_000),
        (2, &[]),
    ),
    case(
        "a making is lent second lag sums one short",
        &[lend(SecondLagSums, 8)],
        making(8_000),
        (2, &[]),
    ),
    case(
        "a flag of channel 1 is 2, and channel 0 is asked",
        &[set(State, 36, 2)],
        Channel(0, ScanCall::Frames),
        (16, &[0]),
    ),
    case(
        "a flag of channel 1 is 2, and it is asked",
        &[set(State, 36, 2)],
        Channel(1, ScanCall::Frames),
        (3, &[]),
    ),
    case(
        "a flag of channel 0 is 2, and channel 1 is rearmed",
        &[set(State, 23, 2)],
        Channel(1, ScanCall::Rearm),
        (16, &[]),
    ),
    case(
        "flags of both are 2: a far push",
        &[set(State, 23, 2), set(State, 36, 2)],
        Common(ScanCall::PushFar),
        (16, &[]),
    ),
    case(
        "flags of both are 2: samples in a bin",
        &[set(State, 23, 2), set(State, 36, 2)],
        Common(ScanCall::BinSamples),
        (16, &[8]),
    ),
    case(
        "a far count of 9: a far push",
        &[set(State, 10, 9)],
        Common(ScanCall::PushFar),
        (3, &[]),
    ),
    case(
        "a far count of 9: a report of channel 1",
        &[set(State, 10, 9)],
        Channel(1, ScanCall::Finished),
        (3, &[]),
    ),
    case(
        "a flag of channel 0 is 2: a reset",
        &[set(State, 23, 2)],
        Common(ScanCall::Reset),
        (3, &[]),
    ),
    case(
        "a flag of channel 1 is 2: a reset",
        &[set(State, 36, 2)],
        Common(ScanCall::Reset),
        (3, &[]),
    ),
    case(
        "a flag of channel 0 is 2, second lag sums one short: a reset",
        &[set(State, 23, 2), lend(SecondLagSums, 1)],
        Common(ScanCall::Reset),
        (2, &[]),
    ),
    case(
        "an envelope one short, ceiling 0: a reset",
        &[set(State, 1, 0), lend(Envelope, 4256)],
        Common(ScanCall::Reset),
        (1, &[]),
    ),
    case(
        "both are finished: a far push",
        &[set(State, 23, 1), set(State, 36, 1)],
        Common(ScanCall::PushFar),
        (16, &[]),
    ),
    case(
        "a full frame of channel 0 waits, and channel 1 takes a sample",
        &[set(State, 12, 256), set(State, 24, 2047)],
        Channel(1, near(0.5, 0)),
        (18, &[]),
    ),
    case(
        "a full frame of channel 0 waits, and it is offered a sample",
        &[set(State, 12, 256), set(State, 24, 2047)],
        Channel(0, near(0.5, 2048)),
        (6, &[]),
    ),
    case(
        "a full frame of channel 0 waits, and channel 1 is scored",
        &[set(State, 12, 256), set(State, 24, 2047)],
        Channel(1, ScanCall::Observe),
        (7, &[]),
    ),
    case(
        "a full frame of channel 1 waits, and it is scored",
        &[set(State, 25, 256), set(State, 37, 2047)],
        Channel(1, ScanCall::Observe),
        (16, &[]),
    ),
    case(
        "channel 0 is finished, and channel 1 takes a sample",
        &[set(State, 23, 1)],
        Channel(1, near(0.5, 0)),
        (18, &[]),
    ),
    case(
        "channel 0 is finished, and ignores one",
        &[set(State, 23, 1)],
        Channel(0, near(f32::NAN, u64::MAX)),
        (16, &[]),
    ),
    case(
        "a region of channel 1, asked of channel 1",
        &[
            set(State, 32, 1),
            set(State, 33, 96),
            set(State, 34, DOUBLE),
        ],
        Channel(1, ScanCall::Region),
        (17, &[96, DOUBLE]),
    ),
    case(
        "a region of channel 1, asked of channel 0",
        &[set(State, 32, 1), set(State, 33, 96)],
        Channel(0, ScanCall::Region),
        (16, &[]),
    ),
    case(
        "channel 1 is discarded, lag sums of channel 0 one short",
        &[lend(FirstLagSums, 1)],
        Channel(1, ScanCall::DiscardNear),
        (16, &[]),
    ),
    case(
        "a hole in channel 1 while channel 0 has another last index",
        &[
            set(State, 14, 2),
            set(State, 24, 1),
            set(State, 27, 3),
            set(State, 37, 2),
        ],
        Channel(1, near(0.5, 2)),
        (17, &[]),
    ),
];
