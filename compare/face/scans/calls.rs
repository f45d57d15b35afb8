//! The calls of a scan, made: what the face answers, and what the original does.

use super::original::Original;
use super::shape::Call;
use super::world::{Seen, World};
use crate::floats::narrowed;

/// Calls the face.
pub fn face(w: &mut World, call: &Call) -> u32 {
    let (state, values) = (w.state.lent_mut(), w.values.lent_mut());
    let (envelope, lag_sums) = (w.envelope.lent_mut(), w.lag_sums.lent_mut());
    let face = &w.profile.calls;
    match *call {
        Call::New { rate, ceiling } => (face.new)(state, envelope, lag_sums, rate, ceiling),
        Call::Reset => (face.reset)(state, envelope, lag_sums),
        Call::Rearm => (face.rearm)(state, lag_sums),
        Call::DiscardNear => (face.discard_near)(state, lag_sums),
        Call::PushFar => (face.push_far)(state, envelope, w.samples.lent()),
        Call::PushNear { sample, index } => {
            (face.push_near)(state, w.levels.lent_mut(), sample, index)
        }
        Call::Observe => observe(w),
        Call::PushNearRun { first } => {
            let (levels, samples) = (w.levels.lent_mut(), w.samples.lent());
            (face.push_near_run)(state, levels, samples, first, values)
        }
        Call::BinSamples => (face.bin_samples)(state, values),
        Call::CeilingSamples => (face.ceiling_samples)(state, values),
        Call::Frames => (face.frames)(state, values),
        Call::Correlation => (face.correlation)(state, values),
        Call::Region => (face.region)(state, values),
        Call::BeyondCeiling => (face.beyond_ceiling)(state),
        Call::Finished => (face.finished)(state),
        Call::Exhausted => (face.exhausted)(state),
    }
}

pub fn observe(w: &mut World) -> u32 {
    (w.profile.calls.observe)(
        w.state.lent_mut(),
        w.envelope.lent(),
        w.levels.lent(),
        w.window.lent_mut(),
        w.prefix.lent_mut(),
        w.squares.lent_mut(),
        w.scores.lent_mut(),
        w.lag_sums.lent_mut(),
        w.values.lent_mut(),
    )
}

/// Does the same with the original: the number of the case, and the values that go with it.
/// `last` is the index of the last near sample that was taken, which the original does not keep.
pub fn original<O: Original>(
    w: &Seen,
    call: &Call,
    scan: &mut O,
    last: &mut u64,
) -> (u32, Vec<u64>) {
    let flag = |yes: bool| (16 + yes as u32, vec![]);
    match *call {
        Call::New { rate, ceiling } => {
            *scan = O::made(rate, ceiling);
            *last = 0;
        }
        Call::Reset => {
            scan.reset();
            *last = 0;
        }
        Call::Rearm => {
            scan.rearm();
            *last = 0;
        }
        Call::DiscardNear => scan.discard_near(),
        Call::PushFar => scan.push_far(w.samples.lent()),
        Call::PushNear { sample, index } => {
            return (near_answer(scan, last, sample, index), vec![])
        }
        Call::Observe => return scored(w, scan),
        Call::BinSamples => return (16, vec![scan.bin_samples()]),
        Call::CeilingSamples => return (16, vec![scan.ceiling_samples()]),
        Call::Frames => return (16, vec![scan.frames()]),
        Call::PushNearRun { first } => return near_run(w, scan, last, first),
        Call::Correlation => return (16, vec![correlation(scan) as u64]),
        Call::Region => {
            return match scan.region() {
                None => (16, vec![]),
                Some((delay, correlation)) => (17, vec![delay, correlation.to_bits()]),
            }
        }
        Call::BeyondCeiling => return flag(scan.beyond_ceiling()),
        Call::Finished => return flag(scan.finished()),
        Call::Exhausted => return flag(scan.exhausted()),
    }
    (16, vec![])
}

/// The one report that the original computes: a region's correlation is narrowed, and what `as f32` makes of a NaN's bits is left open. The scope paper fixes it.
fn correlation(scan: &impl Original) -> u32 {
    match scan.region() {
        Some((_, correlation)) if correlation.is_nan() => narrowed(correlation.to_bits()),
        _ => scan.correlation().to_bits(),
    }
}

/// The original says only whether the frame is full: a finished scan ignores, and a sample after which no frame is under way was dropped.
pub fn near_answer(scan: &mut impl Original, last: &mut u64, sample: f32, index: u64) -> u32 {
    if scan.finished() {
        assert!(!scan.push_numbered(last, sample, index));
        return 16;
    }
    let full = scan.push_numbered(last, sample, index);
    match (full, scan.under_way()) {
        (true, _) => 19,
        (_, true) => 18,
        _ => 17,
    }
}

/// Sample by sample, with rising indices, up to the one that completes the frame.
fn near_run(w: &Seen, scan: &mut impl Original, last: &mut u64, first: u64) -> (u32, Vec<u64>) {
    let samples = w.samples.lent();
    for (i, sample) in samples.iter().enumerate() {
        match near_answer(scan, last, *sample, first.wrapping_add(i as u64)) {
            16 => return (16, vec![samples.len() as u64]),
            19 => return (19, vec![i as u64 + 1]),
            _ => {}
        }
    }
    (18, vec![samples.len() as u64])
}

/// Whether a frame with this answer passed to step 5.
pub fn counted(number: u32) -> bool {
    number >= 20
}

/// The frame scored and named. Its products are the third value; those before it that the answer does not have are as they were.
pub fn scored(w: &Seen, scan: &mut impl Original) -> (u32, Vec<u64>) {
    let (number, mut values) = scan.scored();
    let before = w.values.before();
    while values.len() < 2 {
        values.push(before[values.len()]);
    }
    values.push(scan.products(counted(number)));
    (number, values)
}
