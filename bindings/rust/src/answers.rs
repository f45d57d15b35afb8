//! Numbers of the C face: below 16 a refusal, from 16 on an answer.

use core::fmt;

/// Why a call was refused. Nothing that it was lent has been written then.
#[derive(Clone, Copy, PartialEq, Eq, Debug, Hash)]
pub enum Refusal {
    /// Rate, ceiling or span outside the table.
    OutsideTable,
    /// A list is not of the length that the call needs.
    WrongLength,
    /// The words of the state break a rule.
    BrokenState,
    /// A number that would be read is a NaN or infinite.
    NotFinite,
    /// An index, delay, alignment or origin of 2^62 or more, or a push that would pass 2^62 samples.
    TooLarge,
    /// A near sample is offered while a full frame waits.
    FrameWaits,
    /// A frame is to be scored and none is full.
    NoFullFrame,
    /// A tracker's largest contradiction run is below its current one.
    InconsistentRecord,
    /// The channel number of a pair is not 0 or 1.
    NoSuchChannel,
    /// One that a newer archive has and this crate does not know, by its number.
    Other(u32),
}

impl Refusal {
    fn of(number: u32) -> Refusal {
        match number {
            1 => Refusal::OutsideTable,
            2 => Refusal::WrongLength,
            3 => Refusal::BrokenState,
            4 => Refusal::NotFinite,
            5 => Refusal::TooLarge,
            6 => Refusal::FrameWaits,
            7 => Refusal::NoFullFrame,
            9 => Refusal::InconsistentRecord,
            11 => Refusal::NoSuchChannel,
            _ => Refusal::Other(number),
        }
    }
}

impl fmt::Display for Refusal {
    fn fmt(&self, out: &mut fmt::Formatter<'_>) -> fmt::Result {
        match self {
            Refusal::OutsideTable => out.write_str("setting outside the table"),
            Refusal::WrongLength => out.write_str("list of the wrong length"),
            Refusal::BrokenState => out.write_str("broken state"),
            Refusal::NotFinite => out.write_str("number that is not finite"),
            Refusal::TooLarge => out.write_str("number of 2^62 or more"),
            Refusal::FrameWaits => out.write_str("a full frame waits"),
            Refusal::NoFullFrame => out.write_str("no full frame"),
            Refusal::InconsistentRecord => out.write_str("inconsistent record"),
            Refusal::NoSuchChannel => out.write_str("no such channel"),
            Refusal::Other(number) => write!(out, "refusal {number}"),
        }
    }
}

impl core::error::Error for Refusal {}

/// Which answer it is, counted from 0.
pub(crate) fn answer(number: u32) -> Result<u32, Refusal> {
    if number < 16 {
        Err(Refusal::of(number))
    } else {
        Ok(number - 16)
    }
}

pub(crate) fn done(number: u32) -> Result<(), Refusal> {
    answer(number).map(|_| ())
}

pub(crate) fn flag(number: u32) -> Result<bool, Refusal> {
    answer(number).map(|case| case == 1)
}

/// An answer of a number that no case has: it belongs to a newer archive.
pub(crate) fn unknown<T>(case: u32) -> Result<T, Refusal> {
    Err(Refusal::Other(case + 16))
}

/// The one value that a report hands out.
pub(crate) fn report(call: impl FnOnce(&mut [u64]) -> u32) -> Result<u64, Refusal> {
    let mut values = [0];
    done(call(&mut values))?;
    Ok(values[0])
}
