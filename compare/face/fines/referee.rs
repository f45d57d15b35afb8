//! Which refusal is due: the scope paper's table, order and state rules, and what the C header says of lists and words. Nothing of the core's source, and of the
//! calls only their shape.

use super::shape::{Call, List};
use super::world::{World, WORDS};
use crate::rules::*;
use crate::shape::Call as _;

pub fn due(w: &World, call: &Call) -> Judged {
    let state = w.state.lent();
    let (shape, state_fits) = (call.shape(), state.len() == WORDS);
    if let Call::New(span) = *call {
        return judged_making(allowed_span(span as u64), state_fits);
    }
    let values_fit = shape.values_fit(w.values.lent().len());
    judged(state_fits, || allowed_span(state[0]), values_fit)?;
    let lengths = Lengths::of(state[0]);
    let fits = |list: &List| fits(w, *list, state[0], &lengths);
    require(shape.lent.iter().all(fits), WRONG_LENGTH)?;
    require(keeps_rules(state, &lengths), BROKEN_STATE)?;
    later(w, call, &lengths)
}

fn fits(w: &World, list: List, span: u64, lengths: &Lengths) -> bool {
    match list {
        List::State | List::Values | List::Samples => true,
        List::Near => w.near.lent().len() as u64 == lengths.frame,
        List::Retained => w.retained.lent().len() as u64 == lengths.frame,
        List::Far => w.far.lent().len() as u64 == lengths.window,
        List::Correlation => w.correlation.lent().len() as u64 > span,
    }
}

/// Lengths follow from the span, the origin is below 2^62, the near length at most frame; flags and counts are cases.
fn keeps_rules(state: &[u64], lengths: &Lengths) -> bool {
    state[1] == lengths.transform
        && state[2] == lengths.frame
        && state[3] < LIMIT
        && state[4] <= lengths.frame
        && is_flag(state[5])
        && is_half(state[6])
        && is_half(state[7])
        && is_flag(state[10])
}

fn later(w: &World, call: &Call, lengths: &Lengths) -> Judged {
    let full = w.word(4) == lengths.frame;
    let skips = |head: u64, tail: u64| head > 0 || tail > lengths.frame / 4;
    let finite = |read: &[f32]| require(all_finite32(read), NOT_FINITE);
    match *call {
        Call::Relocate(origin) => require(origin < LIMIT, TOO_LARGE),
        Call::PushNear(sample) => {
            require(!full, FRAME_WAITS)?;
            finite(&[sample])
        }
        Call::PushNearRun => {
            let samples = w.samples.lent();
            if samples.is_empty() {
                return Ok(());
            }
            require(!full, FRAME_WAITS)?;
            let wanted = (lengths.frame - w.word(4)) as usize;
            finite(&samples[..samples.len().min(wanted)])
        }
        Call::Gate { head, tail } => {
            require(full, NO_FULL_FRAME)?;
            if skips(head, tail) {
                return Ok(());
            }
            finite(w.near.lent())?;
            finite(w.far.lent())
        }
        Call::Rescan { head, tail } => {
            if w.word(5) == 0 || skips(head, tail) {
                return Ok(());
            }
            finite(w.retained.lent())?;
            finite(w.far.lent())
        }
        Call::Peak => finite(&w.correlation.lent()[..=w.word(0) as usize]),
        _ => Ok(()),
    }
}
