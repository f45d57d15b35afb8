//! Runs a checker over the oracle's logs, right and with one fault each, and holds its verdict to a plain comparison of lines.

use super::recordings::any;
use super::{log, Recording};
use crate::random::Random;
use std::process::Command;

const FOLDER: &str = "target/compare/checks";
const SHOWN: usize = 5;
/// No line of a log has more bytes, and no more of a wrong one are shown.
const MOST: usize = 75;

/// What is done to a log. The first three leave it right.
const DEEDS: [&str; 17] = [
    "nothing",
    "newline off",
    "pipe",
    "cut",
    "line missing",
    "last missing",
    "doubled",
    "swapped",
    "byte changed",
    "carriage return",
    "NUL",
    "blank behind",
    "blank line",
    "extra line",
    "long line",
    "empty",
    "other log",
];

/// Tries `count` recordings from a seed: each deed in turn. What differs is kept in the folder under its number.
pub fn run(seed: u64, count: usize, program: &str) -> Result<(), String> {
    std::fs::create_dir_all(FOLDER).map_err(|error| format!("{FOLDER}: {error}"))?;
    let mut random = Random::new(seed);
    let mut different = 0;
    let mut accepted = 0;
    for number in 0..count {
        let recording = any(&mut random);
        let right = log(&recording).into_bytes();
        let deed = DEEDS[number % DEEDS.len()];
        let held = done(deed, &right, &mut random);
        let (status, words) = verdict(&held, &right);
        accepted += usize::from(status == 0);
        if asked(program, &recording, &held, deed == "pipe")? == (status, words) {
            continue;
        }
        different += 1;
        if different <= SHOWN {
            write(&recording, &held, &format!("{number}."))?;
            println!("checks: {number} ({deed}) differs, see {FOLDER}/{number}.events, .far, .near and .log");
        }
    }
    println!("checks: {count} tried, {accepted} of them right, {different} different");
    if different > 0 {
        return Err("checks: the checker and a plain comparison differ".to_string());
    }
    Ok(())
}

/// One fault, at a random place.
fn done(deed: &str, right: &[u8], random: &mut Random) -> Vec<u8> {
    let mut lines: Vec<Vec<u8>> = cut(right);
    let some = random.below(lines.len() as u64) as usize;
    let place = random.below(right.len() as u64) as usize;
    let mut bytes = right.to_vec();
    match deed {
        "nothing" | "pipe" => return bytes,
        "newline off" => {
            bytes.pop();
            return bytes;
        }
        "cut" => {
            bytes.truncate(place);
            return bytes;
        }
        "byte changed" => {
            bytes[place] = bytes[place].wrapping_add(random.between(1, 255) as u8);
            return bytes;
        }
        "NUL" => {
            bytes.insert(place, 0);
            return bytes;
        }
        "empty" => return Vec::new(),
        "other log" => return log(&any(random)).into_bytes(),
        "line missing" => {
            lines.remove(some);
        }
        "last missing" => {
            lines.pop();
        }
        "doubled" => lines.insert(some, lines[some].clone()),
        "swapped" => {
            let next = (some + 1) % lines.len();
            lines.swap(some, next);
        }
        "carriage return" => lines[some].push(b'\r'),
        "blank behind" => lines[some].push(b' '),
        "blank line" => lines.insert(some, Vec::new()),
        "extra line" => lines.push(
            random
                .one_of(&[&b"end frames 0 cycles 0"[..], b"x", b"", b"bad totals"])
                .to_vec(),
        ),
        "long line" => {
            let letters = random.one_of(&[1, 60, 74, 75, 76, 255, 65_536, 70_000]);
            lines[some].extend(std::iter::repeat(b'a').take(letters));
        }
        _ => unreachable!(),
    }
    lines
        .iter()
        .flat_map(|line| [line, &b"\n"[..]].concat())
        .collect()
}

/// Cut at each newline; what stands behind the last one is a line if it is not empty.
fn cut(bytes: &[u8]) -> Vec<Vec<u8>> {
    let mut lines: Vec<Vec<u8>> = bytes
        .split(|&byte| byte == b'\n')
        .map(<[u8]>::to_vec)
        .collect();
    if lines.last().is_some_and(Vec::is_empty) {
        lines.pop();
    }
    lines
}

/// The status and the words that are due.
pub fn verdict(held: &[u8], right: &[u8]) -> (i32, Vec<u8>) {
    let (held, right) = (cut(held), cut(right));
    let lines = held.len().max(right.len());
    let Some(place) = (0..lines).find(|&place| held.get(place) != right.get(place)) else {
        return (0, b"accepted\n".to_vec());
    };
    let mut words = format!("wrong at line {}\n", place + 1).into_bytes();
    words.extend(told("stands", held.get(place)));
    words.extend(told("should stand", right.get(place)));
    (3, words)
}

fn told(what: &str, line: Option<&Vec<u8>>) -> Vec<u8> {
    match line {
        None => format!("{what} nothing\n").into_bytes(),
        Some(line) if line.len() <= MOST => [what.as_bytes(), b": ", line, b"\n"].concat(),
        Some(line) => [what.as_bytes(), b": ", &line[..MOST], b" ..\n"].concat(),
    }
}

/// What the program ends with and prints. By a pipe the log comes from `cat`.
fn asked(
    program: &str,
    recording: &Recording,
    held: &[u8],
    pipe: bool,
) -> Result<(i32, Vec<u8>), String> {
    let paths = write(recording, held, "")?;
    let mut command = if pipe {
        Command::new("bash")
    } else {
        Command::new(program)
    };
    if pipe {
        command.args([
            "-c",
            "exec \"$0\" \"$1\" \"$2\" \"$3\" <(cat \"$4\")",
            program,
        ]);
    }
    let output = command
        .args(paths)
        .output()
        .map_err(|error| format!("{program}: {error}"))?;
    Ok((output.status.code().unwrap_or(-1), output.stdout))
}

fn write(recording: &Recording, held: &[u8], prefix: &str) -> Result<[String; 4], String> {
    let path = |name: &str| format!("{FOLDER}/{prefix}{name}");
    let paths = [path("events"), path("far"), path("near"), path("log")];
    let sides = [&recording.events[..], &recording.far, &recording.near, held];
    for (path, bytes) in paths.iter().zip(sides) {
        std::fs::write(path, bytes).map_err(|error| format!("{path}: {error}"))?;
    }
    Ok(paths)
}
