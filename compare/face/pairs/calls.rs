//! The calls of a pair, made over the face.

use super::shape::Call;
use super::world::World;
use crate::face::pair as face;
use crate::scans::shape::Call as ScanCall;

pub fn face(w: &mut World, call: &Call) -> u32 {
    match call {
        Call::Common(call) => common(w, call),
        Call::Channel(number, call) => channel(w, *number, call),
    }
}

fn common(w: &mut World, call: &ScanCall) -> u32 {
    let (state, envelope) = (w.state.lent_mut(), w.envelope.lent_mut());
    let (first, second) = (w.first_lag_sums.lent_mut(), w.second_lag_sums.lent_mut());
    match *call {
        ScanCall::New { rate, ceiling } => face::new(state, envelope, first, second, rate, ceiling),
        ScanCall::Reset => face::reset(state, envelope, first, second),
        ScanCall::PushFar => face::push_far(state, envelope, w.samples.lent()),
        ScanCall::BinSamples => face::bin_samples(state, w.values.lent_mut()),
        ScanCall::CeilingSamples => face::ceiling_samples(state, w.values.lent_mut()),
        _ => unreachable!("{call:?} names a channel"),
    }
}

fn channel(w: &mut World, number: u32, call: &ScanCall) -> u32 {
    let (levels, lag_sums) = match number & 1 {
        0 => (&mut w.first_levels, &mut w.first_lag_sums),
        _ => (&mut w.second_levels, &mut w.second_lag_sums),
    };
    let (levels, lag_sums) = (levels.lent_mut(), lag_sums.lent_mut());
    let (state, values) = (w.state.lent_mut(), w.values.lent_mut());
    match *call {
        ScanCall::Rearm => face::rearm(state, number, lag_sums),
        ScanCall::DiscardNear => face::discard_near(state, number, lag_sums),
        ScanCall::PushNear { sample, index } => {
            face::push_near(state, number, levels, sample, index)
        }
        ScanCall::PushNearRun { first } => {
            face::push_near_run(state, number, levels, w.samples.lent(), first, values)
        }
        ScanCall::Observe => face::observe(
            state,
            number,
            w.envelope.lent(),
            levels,
            w.window.lent_mut(),
            w.prefix.lent_mut(),
            w.squares.lent_mut(),
            w.scores.lent_mut(),
            lag_sums,
            values,
        ),
        ScanCall::Frames => face::frames(state, number, values),
        ScanCall::Correlation => face::correlation(state, number, values),
        ScanCall::Region => face::region(state, number, values),
        ScanCall::BeyondCeiling => face::beyond_ceiling(state, number),
        ScanCall::Finished => face::finished(state, number),
        ScanCall::Exhausted => face::exhausted(state, number),
        _ => unreachable!("{call:?} names no channel"),
    }
}
