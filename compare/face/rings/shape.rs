//! The calls of the ring and the lists that they are lent.

use crate::shape::{self, Shape};

#[derive(Clone, Copy, PartialEq, Debug)]
pub enum List {
    State,
    Values,
    Buffer,
    Samples,
    Floats,
    Window,
    FloatWindow,
}

#[derive(Clone, Copy, PartialEq, Debug)]
pub enum Call {
    New,
    Push,
    PushFloats,
    Clear,
    Get(u64),
    Window { at: u64, back: u64 },
    WindowFloats { at: u64, back: u64 },
    NextAbs,
    Capacity,
    Dropped,
}

impl shape::Call for Call {
    type List = List;

    fn shape(&self) -> Shape<List> {
        use List::*;
        let (name, lent, values): (_, &[List], _) = match self {
            Call::New => ("new", &[State, Buffer], 0),
            Call::Push => ("push", &[State, Buffer, Samples], 0),
            Call::PushFloats => ("push_floats", &[State, Buffer, Floats], 0),
            Call::Clear => ("clear", &[State, Buffer], 0),
            Call::Get(_) => ("get", &[State, Buffer, Values], 1),
            Call::Window { .. } => ("window", &[State, Buffer, Window, Values], 2),
            Call::WindowFloats { .. } => ("window_floats", &[State, Buffer, FloatWindow, Values], 2),
            Call::NextAbs => ("next_abs", &[State, Buffer, Values], 1),
            Call::Capacity => ("capacity", &[State, Buffer, Values], 1),
            Call::Dropped => ("dropped", &[State, Buffer, Values], 1),
        };
        Shape { name, lent, values }
    }
}
