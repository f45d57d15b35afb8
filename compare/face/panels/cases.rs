//! The cases of the panel that have a name, of one of 8,000 Hz and 8 ms: 256 bins a frame, 264 a window, 776 in the envelope.

use crate::changes::{lend, set, Change};
use crate::course::Case;
use crate::scans::shape::Call;
use crate::scans::shape::List::{self, Envelope, LagSums, State, Values};

const fn case(
    name: &'static str,
    changes: &'static [Change<List>],
    call: Call,
    answer: (u32, &'static [u64]),
) -> Case<Call> {
    Case {
        name,
        changes,
        call,
        answer,
    }
}

const fn making(rate: u32, ceiling: u32) -> Call {
    Call::New { rate, ceiling }
}

/// A state of 12,000 Hz and 8 ms that keeps all rules of a scan.
const TWELVE: &[Change<List>] = &[set(State, 0, 12_000), set(State, 2, 12)];

/// A full frame from bin 8 on, while so many bins have been written.
const fn full(bins: u64) -> [Change<List>; 5] {
    [
        set(State, 8, bins),
        set(State, 11, bins * 8),
        set(State, 12, 256),
        set(State, 15, 8),
        set(State, 24, 264 * 8 - 1),
    ]
}

const KEPT: &[Change<List>] = &full(776);
const OVERWRITTEN: &[Change<List>] = &full(777);

pub const CASES: &[Case<Call>] = &[
    case("a making for 8,000 / 8", &[], making(8_000, 8), (16, &[])),
    case("a making for 8,000 / 7", &[], making(8_000, 7), (1, &[])),
    case(
        "a making for 16,000 / 321",
        &[],
        making(16_000, 321),
        (1, &[]),
    ),
    case("a making for 12,000 / 8", &[], making(12_000, 8), (1, &[])),
    case(
        "a making for 12,000 / 8 is lent 24 words",
        &[lend(State, 24)],
        making(12_000, 8),
        (1, &[]),
    ),
    case(
        "a making for 8,000 / 8 is lent 24 words",
        &[lend(State, 24)],
        making(8_000, 8),
        (2, &[]),
    ),
    case(
        "a making is lent an envelope one bin long",
        &[lend(Envelope, 777)],
        making(8_000, 8),
        (2, &[]),
    ),
    case(
        "a reset is lent an envelope one bin long",
        &[lend(Envelope, 777)],
        Call::Reset,
        (2, &[]),
    ),
    case(
        "samples in a bin at 12,000",
        TWELVE,
        Call::BinSamples,
        (1, &[]),
    ),
    case("a flag at 12,000", TWELVE, Call::Finished, (1, &[])),
    case("a rearm at 12,000", TWELVE, Call::Rearm, (1, &[])),
    case(
        "a near sample at 12,000",
        TWELVE,
        Call::PushNear {
            sample: 0.5,
            index: 0,
        },
        (1, &[]),
    ),
    case(
        "frames of a state of ceiling 7, 2 values lent",
        &[set(State, 1, 7), set(State, 4, 7), lend(Values, 2)],
        Call::Frames,
        (1, &[]),
    ),
    case(
        "a state of ceiling 321, lag sums one short",
        &[set(State, 1, 321), lend(LagSums, 8)],
        Call::DiscardNear,
        (1, &[]),
    ),
    case(
        "a frame whose window is kept to the last bin, all of it silent",
        KEPT,
        Call::Observe,
        (18, &[]),
    ),
    case(
        "a frame whose window's first bin is overwritten",
        OVERWRITTEN,
        Call::Observe,
        (16, &[]),
    ),
];
