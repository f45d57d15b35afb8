//! Whole replays in one process: the replay program of this tree beside a replay in Rust that does what the unchanged scan and tracker need, and no more, and beside one that also makes the scope
//! paper's tests. Times are of the processor, not of the clock on the wall.

#[path = "../../target/compare/original/coarse.rs"]
#[allow(dead_code)]
mod coarse;
#[path = "../../target/compare/original/delay.rs"]
#[allow(dead_code)]
mod delay;
#[path = "../../target/compare/original/fft.rs"]
#[allow(dead_code)]
mod fft;
#[path = "../../target/compare/original/track.rs"]
#[allow(dead_code)]
mod track;

#[path = "../src/random.rs"]
#[allow(dead_code)]
mod random;
#[path = "../src/record.rs"]
#[allow(dead_code)]
mod record;
#[path = "../src/replay/mod.rs"]
#[allow(dead_code)]
mod replay;
#[path = "../src/signal.rs"]
#[allow(dead_code)]
mod signal;

mod clock;
mod inputs;
mod ours;
mod rust;
mod table;

use inputs::Inputs;
use replay::forms::{as_shorts, convert};
use replay::recordings::long::{Long, Plan, What};
use replay::Recording;
use table::{Row, Time};

const RUNS: usize = 15;
/// The most that a replay may take, beside the Rust's.
const LIMIT: f64 = 2.0;

fn main() {
    let words: Vec<String> = std::env::args().skip(1).collect();
    let words: Vec<&str> = words.iter().map(String::as_str).collect();
    let (limited, words) = match words[..] {
        ["limit", ref rest @ ..] => (true, rest),
        ref rest => (false, rest),
    };
    let (minutes, only) = match *words {
        [] => (10, ""),
        [minutes] => (minutes.parse().unwrap_or_else(|_| usage()), ""),
        [minutes, only] => (minutes.parse().unwrap_or_else(|_| usage()), only),
        _ => usage(),
    };
    let asked = |(what, _): &(String, Plan)| what.contains(only);
    let replays: Vec<Row> = plans(minutes).into_iter().filter(asked).map(|(what, plan)| measured(what, plan, 1)).collect();
    table::work("Replay", &replays);
    table::reading(&replays);
    let empty: Vec<Row> = empty().into_iter().filter(asked).map(|(what, plan)| measured(what, plan, 100)).collect();
    table::work("Buffers made and cleared: a replay of no event", &empty);
    let kinds: Vec<Row> = kinds(minutes).into_iter().filter(asked).map(|(what, plan)| both_kinds(what, plan)).collect();
    table::kinds(&kinds);
    std::fs::remove_dir_all(folder()).expect("the recordings can be removed");
    let above: Vec<&Row> = replays.iter().filter(|row| row.ratio() > LIMIT).collect();
    for row in &above {
        println!("above {LIMIT:.1}: {}, {:.2}", row.what, row.ratio());
    }
    std::process::exit((limited && !above.is_empty()) as i32);
}

/// Where this run's recordings are.
fn folder() -> String {
    format!("target/compare/long-{}", std::process::id())
}

fn usage() -> ! {
    eprintln!("replay-times [limit] [MINUTES [WORDS]]: times whole replays beside the Rust's, of recordings up to so long (default 10), or of those alone in whose names the words stand;");
    eprintln!("with limit it ends with 1 if one of them takes more than {LIMIT:.1} times as long");
    std::process::exit(2);
}

/// The recordings, with their names. Events of few samples make long files, so that those recordings are shorter.
fn plans(minutes: u64) -> Vec<(String, Plan)> {
    let mut plans = Vec::new();
    for (event, part) in [(1, 20), (16, 4), (64, 2), (480, 1), (4_096, 1)] {
        for what in [What::Working, What::Found] {
            plans.push(plan(what, 48_000, 500, event, 60 * minutes / part));
        }
    }
    for rate in [8_000, 48_000, 192_000] {
        for ceiling in [500, 4_000] {
            for what in [What::Working, What::Found] {
                if (rate, ceiling) != (48_000, 500) {
                    // a fourth of the time where every lag of the longer span is scored, or four times the samples come
                    let part = if rate == 192_000 || (ceiling == 4_000 && what == What::Working) { 4 } else { 1 };
                    plans.push(plan(what, rate, ceiling, 480, 60 * minutes / part));
                }
            }
        }
    }
    let length = 200_000 * minutes;
    let cycles = Plan { what: What::Cycles, rate: 48_000, ceiling: 500, event: 1, length };
    plans.push((format!("cycles only, {length} of them"), cycles));
    plans
}

fn plan(what: What, rate: u32, ceiling: u32, event: u64, seconds: u64) -> (String, Plan) {
    let which = match what {
        What::Working => "always searching",
        What::Found => "a region at once",
        What::Cycles => "cycles only",
    };
    let length = rate as u64 * seconds / event * event;
    let name = format!("{which}, {rate} Hz, ceiling {ceiling}, events of {event}, {seconds} s");
    (name, Plan { what, rate, ceiling, event, length })
}

fn empty() -> Vec<(String, Plan)> {
    let settings = [(8_000, 500), (48_000, 500), (192_000, 4_000)];
    let plan = |(rate, ceiling)| Plan { what: What::Found, rate, ceiling, event: 480, length: 0 };
    settings.map(|setting| (format!("no event, {} Hz, ceiling {}", setting.0, setting.1), plan(setting))).into()
}

fn kinds(minutes: u64) -> Vec<(String, Plan)> {
    let plans = [What::Working, What::Found].map(|what| plan(what, 48_000, 500, 480, 60 * minutes));
    plans.map(|(what, plan)| (format!("{what}, 16-bit"), plan)).into()
}

/// So many replays one after the other, as one time.
fn timed(inputs: &mut Inputs, turns: u32, run: fn(&mut Inputs) -> Vec<u8>) -> (Time, Vec<u8>) {
    let (mut time, mut log) = (Time::default(), Vec::new());
    for _ in 0..turns {
        inputs.rewind();
        let start = clock::now();
        log = run(inputs);
        let reading = inputs.reading.as_secs_f64();
        time.work += (clock::now() - start).as_secs_f64() - reading;
        time.reading += reading;
    }
    (Time { work: time.work / turns as f64, reading: time.reading / turns as f64 }, log)
}

/// The three sides in turn, each first in every third run. Every log of ours must be the oracle's, byte for byte; the Rust's tell less, and must have its number of lines.
fn measured(what: String, plan: Plan, turns: u32) -> Row {
    let recording: Recording = Long::new(1, plan).whole();
    let mut inputs = Inputs::of(&folder(), &recording);
    let start = clock::now();
    let due = replay::log(&recording).into_bytes();
    let oracle = (clock::now() - start).as_secs_f64();
    drop(recording);
    let sides: [fn(&mut Inputs) -> Vec<u8>; 3] = [ours::replay, rust::replay, rust::refusing];
    let mut times: [Vec<Time>; 3] = Default::default();
    for run in 0..RUNS {
        for side in [0, 1, 2].map(|side| (run + side) % 3) {
            let (time, log) = timed(&mut inputs, turns, sides[side]);
            match side {
                0 => assert!(log == due, "{what}: the log is another than the oracle's"),
                _ => assert!(lines(&log) == lines(&due), "{what}: the Rust has other lines"),
            }
            times[side].push(time);
        }
    }
    eprintln!("timed: {what}");
    Row { what, times, oracle }
}

/// A recording with 16-bit samples and the same with f32 ones (request g), both by our replay, each first in every second run. Both logs must be the oracle's.
fn both_kinds(what: String, plan: Plan) -> Row {
    let shorts = as_shorts(&Long::new(1, plan).whole());
    let floats = convert(true, &shorts).given.expect("a whole recording has another form");
    let due = replay::log(&floats).into_bytes();
    let mut sides = [("shorts", shorts), ("floats", floats)].map(|(name, recording)| Inputs::of(&format!("{}/{name}", folder()), &recording));
    let mut times: [Vec<Time>; 3] = Default::default();
    for run in 0..RUNS {
        for side in [0, 1].map(|side| (run + side) % 2) {
            let (time, log) = timed(&mut sides[side], 1, ours::replay);
            assert!(log == due, "{what}: the log is another than the oracle's");
            times[side].push(time);
        }
    }
    eprintln!("timed: {what}");
    Row { what, times, oracle: 0.0 }
}

fn lines(log: &[u8]) -> usize {
    log.iter().filter(|&&byte| byte == b'\n').count()
}
