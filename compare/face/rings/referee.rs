//! Which refusal is due: the scope paper's table and order, and what the C header says of lists and words. Nothing of the core's source.

use super::shape::Call;
use super::world::{World, WORDS};
use crate::rules::*;
use crate::shape::Call as _;

/// A ring has no setting, so no call on it is outside the table.
pub fn due(w: &World, call: &Call) -> Judged {
    let values_fit = call.shape().values_fit(w.values.lent().len());
    judged(w.state.lent().len() == WORDS, || true, values_fit)?;
    require(!w.buffer.lent().is_empty(), WRONG_LENGTH)?;
    if *call == Call::New {
        return Ok(());
    }
    let accepted = w.state.lent()[0];
    require(accepted <= LIMIT, BROKEN_STATE)?;
    let more = match call {
        Call::Push => w.samples.lent().len() as u64,
        Call::PushFloats => w.floats.lent().len() as u64,
        _ => 0,
    };
    require(accepted + more <= LIMIT, TOO_LARGE)
}
