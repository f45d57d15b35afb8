//! What was measured, as tables.

/// What one replay took, without its reading, and its reading.
#[derive(Default)]
pub struct Time {
    pub work: f64,
    pub reading: f64,
}

/// A recording, and what it took by run: ours, the Rust's, and the Rust's with the scope paper's tests. The oracle's replay ran once, from memory.
pub struct Row {
    pub what: String,
    pub times: [Vec<Time>; 3],
    pub oracle: f64,
}

type Part = fn(&Time) -> f64;
const WORK: Part = |time| time.work;
const READING: Part = |time| time.reading;

impl Row {
    /// Ours by the Rust's, of the least that each took.
    pub fn ratio(&self) -> f64 {
        self.ratios(WORK, 1).0
    }

    fn least(&self, part: Part, side: usize) -> f64 {
        self.times[side].iter().map(part).fold(f64::MAX, f64::min)
    }

    fn median(&self, part: Part, side: usize) -> f64 {
        let mut times: Vec<f64> = self.times[side].iter().map(part).collect();
        times.sort_by(f64::total_cmp);
        times[times.len() / 2]
    }

    /// Ours beside another side: the ratio of minima and that of medians.
    fn ratios(&self, part: Part, side: usize) -> (f64, f64) {
        let by = |measure: fn(&Row, Part, usize) -> f64| measure(self, part, 0) / measure(self, part, side);
        (by(Row::least), by(Row::median))
    }
}

fn told(seconds: f64) -> String {
    format!("{:.3} ms", 1_000.0 * seconds)
}

pub fn work(title: &str, rows: &[Row]) {
    println!("| {title} | Ours | Rust | Ratio of minima | Of medians | Rust with the refusals | Ratio of minima | Oracle, once |");
    println!("|---|---|---|---|---|---|---|---|");
    for row in rows {
        let times = [0, 1, 2].map(|side| told(row.least(WORK, side)));
        let ((least, median), judged) = (row.ratios(WORK, 1), row.ratios(WORK, 2).0);
        let oracle = told(row.oracle);
        println!("| {} | {} | {} | {least:.2} | {median:.2} | {} | {judged:.2} | {oracle} |", row.what, times[0], times[1], times[2]);
    }
    println!();
}

pub fn reading(rows: &[Row]) {
    println!("| Reading the files, not in the times above | Ours | Rust | Ratio of minima | Of medians |");
    println!("|---|---|---|---|---|");
    for row in rows {
        let (least, median) = row.ratios(READING, 1);
        println!("| {} | {} | {} | {least:.2} | {median:.2} |", row.what, told(row.least(READING, 0)), told(row.least(READING, 1)));
    }
    println!();
}

/// Rows of ours alone: 16-bit samples in the place of ours, and the same as f32 in the place of the Rust's.
pub fn kinds(rows: &[Row]) {
    println!("| Ours over 16-bit samples and over the same as f32 | 16-bit | f32 | Ratio of minima | Of medians |");
    println!("|---|---|---|---|---|");
    for row in rows {
        let (least, median) = row.ratios(WORK, 1);
        println!("| {} | {} | {} | {least:.2} | {median:.2} |", row.what, told(row.least(WORK, 0)), told(row.least(WORK, 1)));
    }
    println!();
}
