//! The unchanged Rust original as oracle: it makes the vectors that the suites of the tree replay.

#[path = "../../target/compare/original/coarse.rs"]
#[allow(dead_code)]
mod coarse;
#[path = "../../target/compare/original/delay.rs"]
#[allow(dead_code)]
mod delay;
#[path = "../../target/compare/original/fft.rs"]
#[allow(dead_code)]
mod fft;
#[path = "../../target/compare/original/ring.rs"]
#[allow(dead_code)]
mod ring;
#[path = "../../target/compare/original/track.rs"]
#[allow(dead_code)]
mod track;

mod histories;
mod parts;
mod random;
mod record;
mod replay;
mod signal;
mod vectors;

use replay::maker::header;
use replay::recordings::long::{Long, Plan, What};
use replay::HEADER_LEN;
use std::io::{Seek, Write};

const USAGE: &str = "\
compare vectors tracker SEED FOLDER   writes FOLDER/bands and FOLDER/cycles
compare vectors ring SEED FOLDER      writes FOLDER/calls
compare vectors scan SEED FOLDER      writes FOLDER/calls and FOLDER/full
compare vectors fine SEED FOLDER      writes FOLDER/calls and FOLDER/arrays
compare vectors replay SEED FOLDER    writes index, events, far, near, logs and names of recordings
compare vectors demo SEED FOLDER      writes events, far, near and log of the demo recording
compare long WHICH MINUTES FOLDER     writes events, far and near of a long recording: working or found
compare long WHICH RATE CEILING EVENT LENGTH SEED FOLDER
                                      the same, so many samples an event and a side; or cycles, so many of them
compare replay EVENTS FAR NEAR        prints the log of a recording
compare vectors parts SEED FOLDER     writes index, first, second and logs: pairs of logs, and what is told of them
compare parts SEED COUNT PROGRAM      runs PROGRAM LOG LOG on random pairs of logs and compares what it prints and its status
compare long-logs LINES FOLDER        writes first and second, two logs of so many lines that differ in one
compare histories SEED CYCLES         tells verdicts from random histories by request m's sentences, beside track.rs
compare replays SEED COUNT PROGRAM    runs PROGRAM EVENTS FAR NEAR on random recordings and compares what it prints
compare conversions SEED COUNT CONVERTER REPLAY
                                      runs CONVERTER on random recordings of both forms, right and damaged, there and back, and REPLAY on what it leaves
compare checks SEED COUNT PROGRAM     runs PROGRAM EVENTS FAR NEAR LOG on random recordings and logs, right and with one fault each";

fn main() {
    let words: Vec<String> = std::env::args().skip(1).collect();
    let words: Vec<&str> = words.iter().map(String::as_str).collect();
    let done = match words[..] {
        ["vectors", what, seed, folder] => vectors::write(what, seed, folder),
        ["replays", seed, count, program] => replays(seed, count, program),
        ["parts", seed, count, program] => parts(seed, count, program),
        ["checks", seed, count, program] => checks(seed, count, program),
        ["conversions", seed, count, converter, replay] => {
            conversions(seed, count, converter, replay)
        }
        ["long-logs", lines, folder] => long_logs(lines, folder),
        ["histories", seed, cycles] => histories(seed, cycles),
        ["long", which, minutes, folder] => minutes_long(which, minutes, folder),
        ["long", which, rate, ceiling, event, length, seed, folder] => {
            long(which, [rate, ceiling, event, length, seed], folder)
        }
        ["replay", events, far, near] => print_log(events, far, near),
        _ => Err(USAGE.to_string()),
    };
    if let Err(message) = done {
        eprintln!("{message}");
        std::process::exit(2);
    }
}

fn parts(seed: &str, count: &str, program: &str) -> Result<(), String> {
    let seed = seed.parse().map_err(|_| format!("'{seed}' is no seed"))?;
    let count = count
        .parse()
        .map_err(|_| format!("'{count}' is no number of pairs"))?;
    parts::run(seed, count, program)
}

fn long_logs(lines: &str, folder: &str) -> Result<(), String> {
    let lines = lines
        .parse()
        .map_err(|_| format!("'{lines}' is no number of lines"))?;
    std::fs::create_dir_all(folder).map_err(|error| format!("{folder}: {error}"))?;
    for (name, bytes) in ["first", "second"].into_iter().zip(parts::long(lines)) {
        let path = format!("{folder}/{name}");
        std::fs::write(&path, bytes).map_err(|error| format!("{path}: {error}"))?;
    }
    Ok(())
}

fn histories(seed: &str, cycles: &str) -> Result<(), String> {
    let seed = seed.parse().map_err(|_| format!("'{seed}' is no seed"))?;
    let cycles = cycles
        .parse()
        .map_err(|_| format!("'{cycles}' is no number of cycles"))?;
    histories::run(seed, cycles)
}

fn minutes_long(which: &str, minutes: &str, folder: &str) -> Result<(), String> {
    let minutes: u64 = minutes
        .parse()
        .map_err(|_| format!("'{minutes}' is no number of minutes"))?;
    let samples = (60 * 48_000 * minutes).to_string();
    long(which, ["48000", "500", "480", &samples, "1"], folder)
}

fn long(which: &str, numbers: [&str; 5], folder: &str) -> Result<(), String> {
    let what = What::named(which).ok_or(format!("there is no long recording '{which}'"))?;
    let mut parsed = [0; 5];
    for (number, word) in parsed.iter_mut().zip(numbers) {
        *number = word.parse().map_err(|_| format!("'{word}' is no number"))?;
    }
    let [rate, ceiling, event, length, seed] = parsed;
    let plan = Plan {
        what,
        rate: rate as u32,
        ceiling: ceiling as u32,
        event,
        length,
    };
    std::fs::create_dir_all(folder)
        .and_then(|()| write_long(Long::new(seed, plan), plan, folder))
        .map_err(|error| format!("{folder}: {error}"))
}

/// Piece by piece, the header last.
fn write_long(mut long: Long, plan: Plan, folder: &str) -> std::io::Result<()> {
    let file = |name: &str| std::fs::File::create(format!("{folder}/{name}"));
    let mut files = [file("events")?, file("far")?, file("near")?];
    files[0].write_all(&[0; HEADER_LEN])?;
    let mut written = [0; 3];
    while let Some(piece) = long.piece() {
        for (at, bytes) in [piece.events, piece.far, piece.near].into_iter().enumerate() {
            files[at].write_all(&bytes)?;
            written[at] += bytes.len();
        }
    }
    files[0].rewind()?;
    files[0].write_all(&header(plan.rate, plan.ceiling, written))
}

fn print_log(events: &str, far: &str, near: &str) -> Result<(), String> {
    let read = |path: &str| std::fs::read(path).map_err(|error| format!("{path}: {error}"));
    let recording = replay::Recording {
        events: read(events)?,
        far: read(far)?,
        near: read(near)?,
    };
    print!("{}", replay::log(&recording));
    Ok(())
}

fn replays(seed: &str, count: &str, program: &str) -> Result<(), String> {
    let seed = seed.parse().map_err(|_| format!("'{seed}' is no seed"))?;
    let count = count.parse().map_err(|_| format!("'{count}' is no count"))?;
    replay::differ::run(seed, count, program)
}

fn checks(seed: &str, count: &str, program: &str) -> Result<(), String> {
    let seed = seed.parse().map_err(|_| format!("'{seed}' is no seed"))?;
    let count = count.parse().map_err(|_| format!("'{count}' is no count"))?;
    replay::checks::run(seed, count, program)
}

fn conversions(seed: &str, count: &str, converter: &str, replay: &str) -> Result<(), String> {
    let seed = seed.parse().map_err(|_| format!("'{seed}' is no seed"))?;
    let count = count.parse().map_err(|_| format!("'{count}' is no count"))?;
    replay::conversions::run(seed, count, converter, replay)
}
