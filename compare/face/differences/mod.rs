//! The inputs of docs/DIFFERENCES.md, on both sides: each differs, and differs as the paper says.

mod fines;
mod pairs;
mod panels;
mod rings;
mod scans;
mod told;
mod trackers;

use crate::face;
use told::Difference;

pub fn run() -> bool {
    // A panic of the original is an answer here, and needs no report of its own.
    std::panic::set_hook(Box::new(|_| {}));
    let parts = [
        vec![root()],
        rings::all(),
        trackers::all(),
        scans::all(),
        panels::all(),
        pairs::all(),
        fines::all(),
    ];
    let all: Vec<Difference> = parts.into_iter().flatten().collect();
    let wrong: usize = all.iter().map(untold).sum();
    println!(
        "differences: {} inputs, {wrong} not as docs/DIFFERENCES.md says",
        all.len()
    );
    wrong == 0
}

/// Tells a difference, and how many sides of it are not as told.
fn untold(difference: &Difference) -> usize {
    let Difference { input, rust, here } = difference;
    println!("{input}: the Rust {}; here {}", rust.0, here.0);
    let wrong = [rust, here].into_iter().filter(|(found, told)| {
        if found != told {
            println!("  '{told}' was expected, not '{found}'");
        }
        found != told
    });
    wrong.count()
}

fn root() -> Difference {
    let minus_one = (-1.0_f64).to_bits();
    let by_hardware = f64::from_bits(std::hint::black_box(minus_one)).sqrt();
    let here = face::square_root(minus_one);
    Difference {
        input: "the root of -1",
        rust: (format!("gives {by_hardware}"), "gives NaN"),
        here: (format!("gives {here:#x}"), "gives 0x7ff8000000000000"),
    }
}
