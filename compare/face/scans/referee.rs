//! Which refusal is due: the scope paper's table, order and state rules, and what the C header says of lists and words. Nothing of the core's source, and of the
//! calls only their shape.

use super::shape::{Call, List};
use super::world::{Seen, World, WORDS};
use crate::rules::*;
use crate::shape::Call as _;

pub fn due(w: &World, call: &Call) -> Judged {
    due_of(&w.seen(), call)
}

pub fn due_of(w: &Seen, call: &Call) -> Judged {
    let allowed = w.profile.allowed;
    let shape = call.shape();
    if let Call::New { rate, ceiling } = *call {
        let (rate, ceiling) = (rate as u64, ceiling as u64);
        judged_making(allowed(rate, ceiling), w.state_fits)?;
        let bins = Bins::with(w.profile.slack, rate, ceiling);
        return buffers_fit(w, shape.lent, &bins);
    }
    let values_fit = shape.values_fit(w.values.lent().len());
    judged(w.state_fits, || allowed(w.word(0), w.word(1)), values_fit)?;
    let bins = w.bins();
    buffers_fit(w, shape.lent, &bins)?;
    require(keeps_rules(&w.words, &bins), BROKEN_STATE)?;
    match *call {
        Call::PushFar => far_push(w),
        Call::PushNear { sample, index } => near_push(w, &bins, sample, index),
        Call::Observe => scoring(w, &bins),
        Call::PushNearRun { first } => near_run(w, &bins, first),
        _ => Ok(()),
    }
}

pub fn buffers_fit(w: &Seen, lent: &[List], bins: &Bins) -> Judged {
    let fits = |list: &List| {
        let (len, due) = match list {
            List::State | List::Values | List::Samples => return true,
            List::Envelope => (w.envelope.lent().len(), bins.envelope()),
            List::Levels => (w.levels.lent().len(), bins.frame),
            List::Window => (w.window.lent().len(), bins.window()),
            List::Prefix => (w.prefix.lent().len(), bins.prefix()),
            List::Squares => (w.squares.lent().len(), bins.prefix()),
            List::Scores => (w.scores.lent().len(), bins.lags()),
            List::LagSums => (w.lag_sums.lent().len(), bins.lags()),
        };
        len as u64 == due
    };
    require(lent.iter().all(fits), WRONG_LENGTH)
}

pub fn keeps_rules(state: &[u64; WORDS], bins: &Bins) -> bool {
    let cases = state[16..19].iter().all(|word| is_half(*word))
        && [19, 22, 23].iter().all(|at| is_flag(state[*at]));
    let finished = state[19] == 1 || state[23] == 1;
    let (next, far_count, accepted) = (state[8], state[10], state[11]);
    let (len, near_count, first) = (state[12], state[14], state[15]);
    let start = first as u128 * bins.decimation as u128;
    let taken = len as u128 * bins.decimation as u128 + near_count as u128;
    state[2..8] == bins.words()
        && next == accepted / bins.decimation
        && far_count == accepted % bins.decimation
        && accepted <= LIMIT
        && finite64(state[9])
        && finite64(state[13])
        && near_count < bins.decimation
        && len <= bins.frame
        && (len < bins.frame || near_count == 0)
        && start < LIMIT as u128
        && (taken == 0 || state[24] as u128 + 1 == start + taken)
        && cases
        && state[16] < 4
        && (!finished || len == 0 && near_count == 0)
}

fn far_push(w: &Seen) -> Judged {
    let samples = w.samples.lent();
    let accepted = w.word(11) as u128 + samples.len() as u128;
    require(accepted <= LIMIT as u128, TOO_LARGE)?;
    require(all_finite32(samples), NOT_FINITE)
}

/// A finished scan ignores any sample, and a sample is dropped unread where no frame goes on with its index and none begins there.
fn near_push(w: &Seen, bins: &Bins, sample: f32, index: u64) -> Judged {
    if w.finished() {
        return Ok(());
    }
    require(w.word(12) != bins.frame, FRAME_WAITS)?;
    require(index < LIMIT, TOO_LARGE)?;
    let under_way = w.word(12) != 0 || w.word(14) != 0;
    let goes_on = under_way && index as u128 == w.word(24) as u128 + 1;
    let dropped = !goes_on && index % bins.decimation != 0;
    require(dropped || finite32(sample.to_bits()), NOT_FINITE)
}

/// The part that would be taken is walked sample by sample, and judged only then: its last index, and each sample of it that would go into the frame.
fn near_run(w: &Seen, bins: &Bins, first: u64) -> Judged {
    let samples = w.samples.lent();
    if samples.is_empty() || w.finished() {
        return Ok(());
    }
    require(w.word(12) != bins.frame, FRAME_WAITS)?;
    let mut inside = w.word(12) * bins.decimation + w.word(14);
    if inside != 0 && first as u128 != w.word(24) as u128 + 1 {
        inside = 0;
    }
    let (mut last, mut finite) = (0, true);
    for (i, sample) in samples.iter().enumerate() {
        last = first as u128 + i as u128;
        if inside != 0 || last % bins.decimation as u128 == 0 {
            inside += 1;
            finite = finite && finite32(sample.to_bits());
        }
        if inside == bins.frame * bins.decimation {
            break;
        }
    }
    require(last < LIMIT as u128, TOO_LARGE)?;
    require(finite, NOT_FINITE)
}

fn scoring(w: &Seen, bins: &Bins) -> Judged {
    require(w.word(12) == bins.frame, NO_FULL_FRAME)?;
    require(readable(w, bins), NOT_FINITE)
}

/// A frame that is neither uncovered nor ahead reads its near levels, the written bins of its window and all lag sums.
fn readable(w: &Seen, bins: &Bins) -> bool {
    let (next, first) = (w.word(8), w.word(15));
    let oldest = next.saturating_sub(bins.envelope());
    let uncovered = first < bins.span || first - bins.span < oldest;
    let unwritten = (first + bins.frame).saturating_sub(next);
    if uncovered || unwritten > bins.frame / 4 {
        return true;
    }
    let start = first - bins.span;
    let envelope = w.envelope.lent();
    let written = (start..(first + bins.frame).min(next))
        .all(|bin| finite32(envelope[(bin % bins.envelope()) as usize].to_bits()));
    written && all_finite32(w.levels.lent()) && all_finite64(w.lag_sums.lent())
}
