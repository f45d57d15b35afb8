//! The cases of the scan that have a name.

use super::shape::Call;
use super::shape::List::{State, Values};
use crate::changes::{lend, set};
use crate::course::Case;

/// Signalling NaNs.
const DOUBLE: u64 = 0x7ff0_0000_0000_0001;
const SINGLE: u64 = 0x7f80_0001;

/// A near sample to a scan of 8 samples a block and 256 blocks a frame.
const fn near(sample: f32, index: u64) -> Call {
    Call::PushNear { sample, index }
}

pub const CASES: &[Case<Call>] = &[
    Case {
        name: "a making for rate 7,999 is lent 23 words",
        changes: &[lend(State, 23)],
        call: Call::New {
            rate: 7_999,
            ceiling: 1,
        },
        answer: (1, &[]),
    },
    Case {
        name: "frames of a state of rate 0, 2 values lent",
        changes: &[set(State, 0, 0), lend(Values, 2)],
        call: Call::Frames,
        answer: (1, &[]),
    },
    Case {
        name: "a region whose correlation is a signalling NaN",
        changes: &[
            set(State, 19, 1),
            set(State, 20, 96),
            set(State, 21, DOUBLE),
        ],
        call: Call::Region,
        answer: (17, &[96, DOUBLE]),
    },
    Case {
        name: "the last level is a signalling NaN, no region",
        changes: &[set(State, 18, SINGLE)],
        call: Call::Correlation,
        answer: (16, &[SINGLE]),
    },
    // The original narrows here, and the scope paper says what a NaN narrows to.
    Case {
        name: "the level of a region whose correlation is a signalling NaN",
        changes: &[set(State, 19, 1), set(State, 21, DOUBLE)],
        call: Call::Correlation,
        answer: (16, &[0x7fc0_0000]),
    },
    // Holes in the near numbering (request d).
    Case {
        name: "after samples 0 and 1: 2, which goes on",
        changes: &[set(State, 14, 2), set(State, 24, 1)],
        call: near(0.5, 2),
        answer: (18, &[]),
    },
    Case {
        name: "after samples 0 and 1: 1 again",
        changes: &[set(State, 14, 2), set(State, 24, 1)],
        call: near(0.5, 1),
        answer: (17, &[]),
    },
    Case {
        name: "after samples 0 and 1: 0, one back, on the grid",
        changes: &[set(State, 14, 2), set(State, 24, 1)],
        call: near(0.5, 0),
        answer: (18, &[]),
    },
    Case {
        name: "after samples 0 and 1: 3, one left out",
        changes: &[set(State, 14, 2), set(State, 24, 1)],
        call: near(0.5, 3),
        answer: (17, &[]),
    },
    Case {
        name: "after samples 0 and 1: 8, on the grid",
        changes: &[set(State, 14, 2), set(State, 24, 1)],
        call: near(0.5, 8),
        answer: (18, &[]),
    },
    Case {
        name: "after samples 0 and 1: 3, no number, which is not read",
        changes: &[set(State, 14, 2), set(State, 24, 1)],
        call: near(f32::NAN, 3),
        answer: (17, &[]),
    },
    Case {
        name: "after samples 0 and 1: 8, no number, which would be read",
        changes: &[set(State, 14, 2), set(State, 24, 1)],
        call: near(f32::NAN, 8),
        answer: (4, &[]),
    },
    Case {
        name: "after samples 0 and 1: 2, no number",
        changes: &[set(State, 14, 2), set(State, 24, 1)],
        call: near(f32::NAN, 2),
        answer: (4, &[]),
    },
    Case {
        name: "after samples 0 and 1: 2^62",
        changes: &[set(State, 14, 2), set(State, 24, 1)],
        call: near(0.5, 1 << 62),
        answer: (5, &[]),
    },
    Case {
        name: "at a block's first sample: 8, which goes on",
        changes: &[set(State, 12, 1), set(State, 24, 7)],
        call: near(0.5, 8),
        answer: (18, &[]),
    },
    Case {
        name: "at a block's first sample: 7 again",
        changes: &[set(State, 12, 1), set(State, 24, 7)],
        call: near(0.5, 7),
        answer: (17, &[]),
    },
    Case {
        name: "at a frame's last sample: 2,047, which fills it",
        changes: &[set(State, 12, 255), set(State, 14, 7), set(State, 24, 2046)],
        call: near(0.5, 2047),
        answer: (19, &[]),
    },
    Case {
        name: "at a frame's last sample: 2,048, which begins another",
        changes: &[set(State, 12, 255), set(State, 14, 7), set(State, 24, 2046)],
        call: near(0.5, 2048),
        answer: (18, &[]),
    },
    Case {
        name: "a full frame waits, and a sample of another index comes",
        changes: &[set(State, 12, 256), set(State, 24, 2047)],
        call: near(0.5, 0),
        answer: (6, &[]),
    },
    Case {
        name: "a last index one too large",
        changes: &[set(State, 14, 2), set(State, 24, 2)],
        call: near(0.5, 3),
        answer: (3, &[]),
    },
    Case {
        name: "a last index one too small",
        changes: &[set(State, 14, 2), set(State, 24, 0)],
        call: near(0.5, 1),
        answer: (3, &[]),
    },
    Case {
        name: "no frame is under way, and the last index is the largest number",
        changes: &[set(State, 24, u64::MAX)],
        call: near(0.5, 0),
        answer: (18, &[]),
    },
    Case {
        name: "a finished scan, and any last index",
        changes: &[set(State, 23, 1), set(State, 24, 77)],
        call: near(f32::NAN, u64::MAX),
        answer: (16, &[]),
    },
];
