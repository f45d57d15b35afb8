//! A ring as a host holds it.

use super::shape::{Call, List};
use crate::lent::Lent;
use crate::lists::lists;

pub const WORDS: usize = 1;

pub struct World {
    pub state: Lent<u64>,
    pub values: Lent<u64>,
    pub buffer: Lent<u32>,
    pub samples: Lent<u32>,
    pub floats: Lent<f32>,
    pub window: Lent<u32>,
    pub float_window: Lent<f32>,
}

lists!(World, Call, List:
    State state, Values values, Buffer buffer, Samples samples, Floats floats, Window window, FloatWindow float_window);

impl World {
    /// A new ring over a buffer that may hold anything.
    pub fn new(buffer: &[u32]) -> World {
        World {
            state: Lent::new(WORDS, 0),
            values: Lent::new(1, 0),
            buffer: Lent::of(buffer),
            samples: Lent::new(0, 0),
            floats: Lent::new(0, 0.0),
            window: Lent::new(0, 0),
            float_window: Lent::new(0, 0.0),
        }
    }

    pub fn accepted(&self) -> u64 {
        self.state.all()[0]
    }
}
