//! Which refusal is due: the scope paper's table, order and state rules, request f, and what the C header says of lists and words. Nothing of the core's source.

use super::shape::{Call, Cycle};
use super::world::{World, WORDS};
use crate::rules::*;
use crate::shape::Call as _;

pub fn due(w: &World, call: &Call) -> Judged {
    let state = w.state.lent();
    let state_fits = state.len() == WORDS;
    if let Call::New(rate) = *call {
        return judged_making(allowed_rate(rate as u64), state_fits);
    }
    let values_fit = call.shape().values_fit(w.values.lent().len());
    judged(state_fits, || allowed_rate(state[0]), values_fit)?;
    require(keeps_rules(state), BROKEN_STATE)?;
    if let Call::Cycle(cycle) = call {
        // A kind of cycle that is none breaks a rule, as a flag that is none does.
        require(cycle.kind <= 2, BROKEN_STATE)?;
    }
    require(state[11] <= state[14], INCONSISTENT_RECORD)?;
    match call {
        Call::Cycle(cycle) => judged_cycle(cycle),
        _ => Ok(()),
    }
}

fn keeps_rules(state: &[u64]) -> bool {
    let delay = |flag: u64, value: u64| is_flag(flag) && (flag == 0 || value < LIMIT);
    state[1..6] == bands(state[0])
        && delay(state[6], state[7])
        && delay(state[8], state[9])
        && state[10..13].iter().all(|run| is_half(*run))
        && is_flag(state[13])
        && is_half(state[14])
}

/// The delay of an unconfident cycle is not looked at.
fn judged_cycle(cycle: &Cycle) -> Judged {
    let delayed = cycle.kind == 0 || cycle.delay < LIMIT;
    require(cycle.alignment < LIMIT && delayed, TOO_LARGE)
}
