//! Runs of near samples, and the peak rule on a correlation with one peak.

use crate::bench::times::{nanoseconds, Times};
use crate::choices;
use crate::delay::DelayEstimator;
use crate::face;
use crate::random::Random;
use std::hint::black_box;

pub fn peak(span: u32) {
    let mut random = Random::new(3);
    let mut correlation: Vec<f32> = (0..=span)
        .map(|_| choices::sample(&mut random) * 0.01)
        .collect();
    correlation[span as usize / 3] = 1.0;
    let mut state = [0; 14];
    assert_eq!(face::fine::new(&mut state, span), 16);
    let mut values = [0; 4];
    let mut original = DelayEstimator::new(1000, span as u16);
    original.correlation().copy_from_slice(&correlation);
    let times = Times::take(
        400,
        || {
            let mut answer = 0;
            let time = nanoseconds(|| {
                answer = face::fine::peak(&mut state, black_box(&correlation), &mut values)
            });
            assert_eq!(answer, 17, "there is a candidate");
            time
        },
        || {
            nanoseconds(|| {
                black_box(original.peak_rule());
            })
        },
    );
    times.row(&format!("peak rule, span {span}"), 1);
}

/// Into one frame, in runs of `count`; the Rust takes each sample by itself.
pub fn near_run(count: usize) {
    const SPAN: u32 = 2_048;
    let mut random = Random::new(4);
    let frame = face::fine::frame_len(SPAN) as usize;
    let samples: Vec<f32> = (0..frame - 1).map(|_| choices::sample(&mut random)).collect();
    let runs = samples.chunks_exact(count);
    let each = runs.len();
    let mut original = DelayEstimator::new(1000, SPAN as u16);
    let times = Times::take(
        300,
        || {
            let (mut state, mut near, mut values) = ([0; 14], vec![0.0; frame], [0]);
            assert_eq!(face::fine::new(&mut state, SPAN), 16);
            nanoseconds(|| {
                for run in runs.clone() {
                    let answer = face::fine::push_near_run(&mut state, &mut near, black_box(run), &mut values);
                    assert_eq!(answer, 16);
                }
            })
        },
        || {
            original.restart();
            nanoseconds(|| {
                for run in runs.clone() {
                    for sample in black_box(run) {
                        black_box(original.push_near(*sample));
                    }
                }
            })
        },
    );
    times.row(&format!("fine near run of {count} samples, a run"), each);
}
