//! A fine frame's far window, read from the ring.

use crate::bench::times::{nanoseconds, Times};
use crate::choices;
use crate::face;
use crate::random::Random;
use crate::ring::ReferenceRing;
use std::hint::black_box;

/// The Rust reads sample by sample, and puts 0 where there is none.
pub fn window(len: usize) {
    let capacity = 3 * len;
    let mut random = Random::new(5);
    let stream: Vec<f32> = (0..5 * len).map(|_| choices::sample(&mut random)).collect();
    let (mut state, mut buf) = ([0], vec![0; capacity]);
    assert_eq!(face::ring::new(&mut state, &buf), 16);
    assert_eq!(face::ring::push_floats(&mut state, &mut buf, &stream), 16);
    let mut original = ReferenceRing::new(capacity);
    original.push(&stream);
    let at = (4 * len - len / 3) as u64;
    let (mut ours, mut theirs, mut values) = (vec![0.0; len], vec![0.0; len], [0; 2]);
    let times = Times::take(
        300,
        || nanoseconds(|| {
            let answer = face::ring::window_floats(&state, black_box(&buf), at, 0, &mut ours, &mut values);
            assert_eq!(answer, 16);
        }),
        || nanoseconds(|| {
            for (i, place) in theirs.iter_mut().enumerate() {
                *place = black_box(&original).get(at + i as u64).unwrap_or(0.0);
            }
        }),
    );
    assert_eq!(ours, theirs);
    times.row(&format!("ring window of {len} samples, as floats"), 1);
}
