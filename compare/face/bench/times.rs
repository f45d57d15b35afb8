//! Times of both sides of a comparison, and a row of the table.

use std::time::Instant;

/// How long it takes, in nanoseconds.
pub fn nanoseconds(work: impl FnOnce()) -> f64 {
    let start = Instant::now();
    work();
    start.elapsed().as_nanos() as f64
}

/// Times of both sides, one after the other, each first in every second run.
pub struct Times {
    pub ours: Vec<f64>,
    pub rust: Vec<f64>,
}

impl Times {
    pub fn take(
        runs: usize,
        mut ours: impl FnMut() -> f64,
        mut rust: impl FnMut() -> f64,
    ) -> Times {
        let mut times = Times {
            ours: Vec::new(),
            rust: Vec::new(),
        };
        for run in 0..runs {
            if run % 2 == 0 {
                times.ours.push(ours());
                times.rust.push(rust());
            } else {
                times.rust.push(rust());
                times.ours.push(ours());
            }
        }
        times
    }

    /// A row of the table, for one of `each` things done in a run.
    pub fn row(&self, what: &str, each: usize) {
        let ratios = self
            .ours
            .iter()
            .zip(&self.rust)
            .map(|(ours, rust)| ours / rust);
        let (ours, rust) = (least(&self.ours), least(&self.rust));
        let each = each as f64;
        println!(
            "| {what} | {} | {} | {:.2} | {:.2} |",
            told(ours / each),
            told(rust / each),
            ours / rust,
            median(ratios.collect())
        );
    }
}

pub fn least(times: &[f64]) -> f64 {
    times.iter().copied().fold(f64::MAX, f64::min)
}

fn median(mut times: Vec<f64>) -> f64 {
    times.sort_by(|a, b| a.total_cmp(b));
    times[times.len() / 2]
}

pub fn told(nanoseconds: f64) -> String {
    match nanoseconds {
        ns if ns < 1_000.0 => format!("{ns:.1} ns"),
        ns => format!("{:.1} us", ns / 1_000.0),
    }
}
