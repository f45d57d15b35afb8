//! The scan: a counted frame, its roots, far and near pushes.

use crate::bench::times::{least, nanoseconds, told, Times};
use crate::choices;
use crate::coarse::CoarseScan;
use crate::face;
use crate::pairs::world::World as Pair;
use crate::random::Random;
use crate::scans::beside;
use crate::scans::calls::observe;
use crate::scans::teleport;
use crate::scans::world::World;
use std::cell::RefCell;
use std::hint::black_box;

/// A full frame over a history that has wrapped.
fn waiting(rate: u32, ceiling: u32) -> World {
    let mut random = Random::new(7);
    let mut w = World::new(rate, ceiling);
    let bins = w.bins();
    for level in w.envelope.all_mut() {
        *level = choices::level(&mut random);
    }
    for level in w.levels.all_mut() {
        *level = choices::level(&mut random);
    }
    let blocks = bins.envelope() + 100;
    w.set_word(8, blocks);
    w.set_word(11, blocks * bins.decimation);
    w.set_word(12, bins.frame);
    w.set_word(15, blocks - bins.frame - 3);
    teleport::set_last(&mut w);
    w
}

pub fn frames(rate: u32, ceiling: u32, runs: usize) {
    let w = waiting(rate, ceiling);
    let given = w.state.all().to_vec();
    let mut original = beside::original(&w);
    let near = w.levels.all().to_vec();
    let world = RefCell::new(w);
    let times = Times::take(
        runs,
        || {
            let w = &mut *world.borrow_mut();
            w.state.all_mut().copy_from_slice(&given);
            let mut answer = 0;
            let time = nanoseconds(|| answer = observe(w));
            assert_eq!(answer, 20, "the frame is banked");
            time
        },
        || {
            original.set_near(near.clone(), given[15]);
            original.set_counts(0, 0, false);
            nanoseconds(|| original.observe())
        },
    );
    times.row(
        &format!("counted frame, {rate} / {ceiling}, every refusal test included"),
        1,
    );
    let roots = roots(&world.borrow(), runs);
    let (ours, rust) = (least(&times.ours), least(&times.rust));
    println!(
        "| all but the roots | {} | | {:.2} | |",
        told(ours - roots),
        (ours - roots) / rust
    );
    println!(
        "| the roots' share of our frame | {:.0} % | | | |",
        100.0 * roots / ours
    );
}

/// As many roots as the frame has lags, of its own energies, in one list as the frame takes them.
fn roots(w: &World, runs: usize) -> f64 {
    let frame = w.bins().frame as usize;
    let products: Vec<u64> = (0..w.lag_sums.all().len())
        .map(|lag| {
            let sum = w.prefix.all()[lag + frame] - w.prefix.all()[lag];
            let squares = w.squares.all()[lag + frame] - w.squares.all()[lag];
            ((squares - sum * sum / frame as f64) * 7.321).to_bits()
        })
        .collect();
    let time = || {
        let mut list = products.clone();
        nanoseconds(|| face::square_roots(black_box(&mut list)))
    };
    least(&(0..runs).map(|_| time()).collect::<Vec<f64>>())
}

/// So many samples a run, cut into pushes of `count`. The stream is several runs long, so that no run repeats the one before it.
const RUN: usize = 1 << 15;
const STREAM: usize = 8 * RUN;

/// The next run of a stream that begins anew at its end.
struct Runs<'a> {
    stream: &'a [f32],
    at: usize,
}

impl<'a> Runs<'a> {
    fn next(&mut self) -> &'a [f32] {
        let run = &self.stream[self.at..self.at + RUN];
        self.at = (self.at + RUN) % STREAM;
        run
    }
}

pub fn far_push(rate: u32, count: usize) {
    let mut random = Random::new(9);
    let stream: Vec<f32> = (0..STREAM).map(|_| choices::sample(&mut random)).collect();
    let mut w = World::new(rate, 500);
    let mut original = CoarseScan::new(rate, 500);
    let mut our_runs = Runs {
        stream: &stream,
        at: 0,
    };
    let mut rust_runs = Runs {
        stream: &stream,
        at: 0,
    };
    let times = Times::take(
        400,
        || {
            let run = our_runs.next();
            nanoseconds(|| {
                for samples in run.chunks_exact(count) {
                    let answer = face::scan::push_far(
                        w.state.lent_mut(),
                        w.envelope.lent_mut(),
                        black_box(samples),
                    );
                    assert_eq!(answer, 16);
                }
            })
        },
        || {
            let run = rust_runs.next();
            nanoseconds(|| {
                for samples in run.chunks_exact(count) {
                    rust_push_far(&mut original, black_box(samples));
                }
            })
        },
    );
    times.row(
        &format!("far push of {count} samples at {rate} Hz, a push"),
        RUN / count,
    );
}

/// A function of its own, so that what it is compiled to does not hang on the benchmark around it.
#[inline(never)]
fn rust_push_far(scan: &mut CoarseScan, samples: &[f32]) {
    scan.push_far(samples);
}

pub fn near_push() {
    const COUNT: usize = 4_096;
    let mut random = Random::new(9);
    let samples: Vec<f32> = (0..COUNT).map(|_| choices::sample(&mut random)).collect();
    let times = Times::take(
        300,
        || {
            let mut w = World::new(48_000, 500);
            nanoseconds(|| {
                for (index, sample) in samples.iter().enumerate() {
                    let answer = face::scan::push_near(
                        w.state.lent_mut(),
                        w.levels.lent_mut(),
                        *sample,
                        index as u64,
                    );
                    black_box(answer);
                }
            })
        },
        || {
            let mut original = CoarseScan::new(48_000, 500);
            nanoseconds(|| {
                for (index, sample) in samples.iter().enumerate() {
                    black_box(original.push_near(black_box(*sample), index as u64));
                }
            })
        },
    );
    times.row("near push, a sample", COUNT);
}

/// A run in one call, beside as many calls of the Rust, within one frame of 12,288 samples.
pub fn near_run(count: usize) {
    let what = format!("near run of {count} samples at 48000 Hz, a run");
    near_runs(&what, count, || {
        let mut w = World::new(48_000, 500);
        let mut values = [0];
        move |run: &[f32], first| {
            let (state, levels) = (w.state.lent_mut(), w.levels.lent_mut());
            face::scan::push_near_run(state, levels, run, first, &mut values)
        }
    });
}

/// The same to one channel of a pair.
pub fn pair_run(count: usize) {
    let what = format!("near run of {count} samples at 48000 Hz to a pair, a run");
    near_runs(&what, count, || {
        let mut w = Pair::new(48_000, 500);
        let mut values = [0];
        move |run: &[f32], first| {
            let (state, levels) = (w.state.lent_mut(), w.second_levels.lent_mut());
            face::pair::push_near_run(state, 1, levels, run, first, &mut values)
        }
    });
}

fn near_runs<P: FnMut(&[f32], u64) -> u32>(what: &str, count: usize, ours: impl Fn() -> P) {
    const SAMPLES: usize = 3 * 3_840;
    let mut random = Random::new(9);
    let samples: Vec<f32> = (0..SAMPLES).map(|_| choices::sample(&mut random)).collect();
    let times = Times::take(
        300,
        || {
            let mut push = ours();
            nanoseconds(|| {
                for (i, run) in samples.chunks_exact(count).enumerate() {
                    assert_eq!(push(black_box(run), (i * count) as u64), 18);
                }
            })
        },
        || {
            let mut original = CoarseScan::new(48_000, 500);
            nanoseconds(|| {
                for (i, run) in samples.chunks_exact(count).enumerate() {
                    rust_push_run(&mut original, black_box(run), (i * count) as u64);
                }
            })
        },
    );
    times.row(what, SAMPLES / count);
}

#[inline(never)]
fn rust_push_run(scan: &mut CoarseScan, samples: &[f32], first: u64) {
    for (i, sample) in samples.iter().enumerate() {
        black_box(scan.push_near(*sample, first + i as u64));
    }
}
