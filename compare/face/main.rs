//! The proved core, over its C face, beside the unchanged Rust original in one process.

#[path = "../../target/compare/original/coarse.rs"]
#[allow(dead_code)]
mod coarse;
#[path = "../../target/compare/original/coarse_panel.rs"]
#[allow(dead_code)]
mod coarse_panel;
#[path = "../../target/compare/original/delay.rs"]
#[allow(dead_code)]
mod delay;
#[path = "../../target/compare/original/fft.rs"]
#[allow(dead_code)]
mod fft;
#[path = "../src/random.rs"]
mod random;
#[path = "../../target/compare/original/ring.rs"]
#[allow(dead_code)]
mod ring;
#[path = "../../target/compare/original/track.rs"]
#[allow(dead_code)]
mod track;

mod bench;
mod changes;
mod choices;
mod course;
mod differences;
#[path = "../../bindings/rust/src/face.rs"]
#[allow(dead_code)]
mod face;
mod fines;
mod floats;
mod lengths;
mod lent;
mod lists;
mod pairs;
mod panels;
mod rings;
mod rules;
mod scans;
mod shape;
mod tally;
mod trackers;
mod trial;

const USAGE: &str = "\
face floats SEED COUNT    square root, narrowing, finite tests and absolute value against the hardware, COUNT patterns each
face roots SEED COUNT     square roots alone, one by one and in lists
face ring SEED CALLS      the named cases, then every call in random order with random damage; so for tracker, scan and fine
face frames SEED COUNT    frames to be scored, bit for bit
face streams SEED SCANS   whole streams from samples
face panel SEED CALLS     a panel beside the original with its slack
face panel-streams SEED N whole streams of a panel and of a scan, and where they part
face pair SEED CALLS      a pair beside two scans of the original, with damage to the channel that is not asked
face pair-streams SEED N  whole streams of two channels from samples
face lengths SEED COUNT   the lengths by rate and ceiling or span
face differences          the inputs of docs/DIFFERENCES.md on both sides
face short SEED           some of everything, in a few seconds
face bench                times beside the Rust";

fn main() {
    let words: Vec<String> = std::env::args().skip(1).collect();
    let words: Vec<&str> = words.iter().map(String::as_str).collect();
    let number = |word: &str| word.parse::<u64>().unwrap_or_else(|_| usage());
    let equal = match words[..] {
        ["short", seed] => short(number(seed)),
        ["bench"] => bench::run(),
        ["differences"] => differences::run(),
        [what, seed, count] => one(what, number(seed), number(count)),
        _ => usage(),
    };
    if !equal {
        std::process::exit(1);
    }
}

fn one(what: &str, seed: u64, count: u64) -> bool {
    match what {
        "floats" => floats::run(seed, count),
        "roots" => floats::roots(seed, count),
        "ring" => course::run::<rings::Ring>(seed, count),
        "tracker" => course::run::<trackers::Follower>(seed, count),
        "scan" => course::run::<scans::Scan<scans::Full>>(seed, count),
        "fine" => course::run::<fines::Fine>(seed, count),
        "frames" => scans::frames::run(seed, count),
        "streams" => scans::streams::run(seed, count),
        "pair" => course::run::<pairs::Pair>(seed, count),
        "pair-streams" => pairs::streams::run(seed, count),
        "panel" => course::run::<scans::Scan<panels::Panel>>(seed, count),
        "panel-streams" => panels::streams::run(seed, count),
        "lengths" => lengths::run(seed, count),
        _ => usage(),
    }
}

fn short(seed: u64) -> bool {
    let parts = [
        ("floats", 2_000_000),
        ("lengths", 100_000),
        ("ring", 300_000),
        ("tracker", 300_000),
        ("scan", 300_000),
        ("fine", 300_000),
        ("frames", 1_000),
        ("streams", 3),
        ("panel", 200_000),
        ("panel-streams", 20),
        ("pair", 200_000),
        ("pair-streams", 10),
    ];
    let different = parts
        .iter()
        .filter(|(what, count)| !one(what, seed, *count));
    let different = different.count();
    println!("short run: {} parts, {different} different", parts.len());
    different == 0
}

fn usage() -> ! {
    eprintln!("{USAGE}");
    std::process::exit(2);
}
