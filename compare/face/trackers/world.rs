//! A tracker as a host holds it.

use super::shape::{Call, List};
use crate::lent::Lent;
use crate::lists::lists;
use crate::rules::bands;

pub const WORDS: usize = 15;

pub struct World {
    pub state: Lent<u64>,
    pub values: Lent<u64>,
}

lists!(World, Call, List: State state, Values values);

impl World {
    /// A new tracker, as the scope paper has it, and a largest run of 0.
    pub fn new(rate: u64) -> World {
        let mut state = [0; WORDS];
        state[0] = rate;
        state[1..6].copy_from_slice(&bands(rate));
        World {
            state: Lent::of(&state),
            values: Lent::new(1, 0),
        }
    }
}
