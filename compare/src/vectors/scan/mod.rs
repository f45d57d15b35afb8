//! Scan calls with every field afterwards and a hash of every buffer.

mod edges;
mod holes;
mod script;
mod streams;

use super::Files;
use crate::random::Random;
use script::Stored;

pub fn files(mut random: Random) -> Files {
    let mut stored = Stored::default();
    streams::pushes(&mut random, &mut stored);
    streams::echoes(&mut random, &mut stored);
    streams::frames(&mut random, &mut stored);
    edges::all(&mut random, &mut stored);
    holes::all(&mut random, &mut stored);
    stored.report();
    vec![("calls", stored.calls.0), ("full", stored.full.0)]
}
