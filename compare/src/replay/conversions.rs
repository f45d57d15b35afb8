//! Runs the converter over random recordings, right and damaged, and holds what it prints, its status and every byte that it leaves to the oracle's; and the logs of both forms to each other.

use super::forms::{announced, as_floats, as_shorts, convert, Form, SHORTS};
use super::recordings::any;
use super::{log, Recording};
use crate::random::Random;
use std::process::Command;

const FOLDER: &str = "target/compare/conversions";
const SHOWN: usize = 5;

/// What is done to a recording before it is converted. The first three leave it as it is.
const DEEDS: [&str; 12] = [
    "nothing",
    "nothing",
    "nothing",
    "bytes beyond",
    "strange sample",
    "strange sample",
    "kind changed",
    "header cut",
    "byte changed",
    "samples cut",
    "total changed",
    "other form",
];

/// Patterns that are no quotient, or nearly one.
const STRANGE: [u32; 10] = [
    0x8000_0000, 0x3f80_0000, 0x7fc0_0000, 0xffc0_0001, 0x7f80_0000, 0xff80_0000, 0x0000_0001, 0x3f7f_ff00, 0x37ff_ffff, 0xbf80_0001,
];

#[derive(Default)]
struct Counts {
    tried: usize,
    back: usize,
    refused: [usize; 2],
    different: usize,
}

/// Tries `count` recordings from a seed. What differs is kept in the folder under its number.
pub fn run(seed: u64, count: usize, converter: &str, replay: &str) -> Result<(), String> {
    std::fs::create_dir_all(FOLDER).map_err(|error| format!("{FOLDER}: {error}"))?;
    let mut random = Random::new(seed);
    let mut counts = Counts::default();
    for number in 0..count {
        let to_floats = random.once_in(2);
        let deed = DEEDS[number % DEEDS.len()];
        let recording = made(&mut random, to_floats, deed);
        let fault = tried(&mut counts, to_floats, &recording, converter, replay)?;
        let Some(fault) = fault else { continue };
        counts.different += 1;
        if counts.different <= SHOWN {
            write(&recording, &format!("{number}."))?;
            println!("conversions: {number} ({deed}, to floats {to_floats}) differs in {fault}, see {FOLDER}/{number}.events, .far and .near");
        }
    }
    let Counts {
        tried,
        back,
        refused: [ten, twelve],
        different,
    } = counts;
    println!("conversions: {tried} tried, {back} there and back with one log, {ten} refused with 10, {twelve} with 12, {different} different");
    if different > 0 {
        return Err("conversions: the converter and the oracle differ".to_string());
    }
    Ok(())
}

/// A recording of the form that the direction takes, with every sample a quotient, and then the deed.
fn made(random: &mut Random, to_floats: bool, deed: &str) -> Recording {
    let shorts = as_shorts(&any(random));
    let plain = convert(true, &shorts).given.unwrap_or_else(|| any(random));
    let mut recording = if to_floats { shorts } else { plain.clone() };
    let kind = random.one_of(&[0, 1, 3, 0x8000_0002, 0x0200_0000, u32::MAX]);
    match deed {
        "bytes beyond" => {
            for side in [&mut recording.events, &mut recording.far, &mut recording.near] {
                side.extend((0..random.below(40)).map(|at| at as u8));
            }
        }
        "strange sample" => strange(random, &mut recording),
        "kind changed" if to_floats => recording.events[24..28].copy_from_slice(&kind.to_le_bytes()),
        "kind changed" => recording.events[12] = 28,
        "header cut" => recording.events.truncate(random.below(29) as usize),
        "byte changed" => {
            let at = random.below(recording.events.len() as u64) as usize;
            recording.events[at] ^= 1 << random.below(8);
        }
        "samples cut" => {
            let side = either(random, &mut recording);
            side.truncate(random.below(side.len() as u64 + 1) as usize);
        }
        "total changed" => {
            let at = random.one_of(&[8, 16, 20]);
            recording.events[at] = recording.events[at].wrapping_add(random.one_of(&[1, 255]));
        }
        "other form" if to_floats => recording = plain,
        "other form" => recording = as_floats(&plain),
        _ => {}
    }
    recording
}

fn either<'a>(random: &mut Random, recording: &'a mut Recording) -> &'a mut Vec<u8> {
    if random.once_in(2) {
        return &mut recording.far;
    }
    &mut recording.near
}

/// One sample of either side becomes a strange one, where it has four bytes.
fn strange(random: &mut Random, recording: &mut Recording) {
    if Form::of(&recording.events) == Some(SHORTS) {
        return;
    }
    let bits = random.one_of(&STRANGE);
    let side = either(random, recording);
    if side.len() >= 4 {
        let at = 4 * random.below(side.len() as u64 / 4) as usize;
        side[at..at + 4].copy_from_slice(&bits.to_le_bytes());
    }
}

/// What differs, if anything does.
fn tried(
    counts: &mut Counts,
    to_floats: bool,
    recording: &Recording,
    converter: &str,
    replay: &str,
) -> Result<Option<&'static str>, String> {
    counts.tried += 1;
    let due = convert(to_floats, recording);
    let (status, line, given) = asked(converter, to_floats, recording)?;
    if (status, &line) != (due.status, &due.line) {
        return Ok(Some("status or line"));
    }
    if !same(given.as_ref(), due.given.as_ref()) {
        return Ok(Some("what it leaves"));
    }
    match status {
        10 => counts.refused[0] += 1,
        12 => counts.refused[1] += 1,
        _ => {}
    }
    let Some(given) = given.filter(|_| status == 0) else {
        return Ok(None);
    };
    let log = log(recording).into_bytes();
    if printed(replay, recording)? != log || printed(replay, &given)? != log {
        return Ok(Some("the log"));
    }
    let (status, _, back) = asked(converter, !to_floats, &given)?;
    if status != 0 || !same(back.as_ref(), Some(&announced(recording))) {
        return Ok(Some("the way back"));
    }
    counts.back += 1;
    Ok(None)
}

fn same(one: Option<&Recording>, other: Option<&Recording>) -> bool {
    let sides = |recording: &Recording| [recording.events.clone(), recording.far.clone(), recording.near.clone()];
    one.map(sides) == other.map(sides)
}

/// The status, the line and the outputs, which are not there before.
fn asked(
    program: &str,
    to_floats: bool,
    recording: &Recording,
) -> Result<(i32, String, Option<Recording>), String> {
    let from = write(recording, "")?;
    let to = ["events", "far", "near"].map(|name| format!("{FOLDER}/to.{name}"));
    for path in &to {
        let _ = std::fs::remove_file(path);
    }
    let direction = if to_floats { "to-floats" } else { "to-shorts" };
    let output = Command::new(program)
        .arg(direction)
        .args(from)
        .args(&to)
        .output()
        .map_err(|error| format!("{program}: {error}"))?;
    let line = String::from_utf8_lossy(&output.stdout).into_owned();
    let read = |path: &String| std::fs::read(path).ok();
    let given = match [read(&to[0]), read(&to[1]), read(&to[2])] {
        [Some(events), Some(far), Some(near)] => Some(Recording { events, far, near }),
        [None, None, None] => None,
        _ => return Err("conversions: some outputs are there and others are not".to_string()),
    };
    Ok((output.status.code().unwrap_or(-1), line, given))
}

fn printed(program: &str, recording: &Recording) -> Result<Vec<u8>, String> {
    let paths = write(recording, "log.")?;
    let run = Command::new(program).args(paths).output();
    run.map(|output| output.stdout)
        .map_err(|error| format!("{program}: {error}"))
}

fn write(recording: &Recording, prefix: &str) -> Result<[String; 3], String> {
    let path = |name: &str| format!("{FOLDER}/{prefix}{name}");
    let paths = [path("events"), path("far"), path("near")];
    let sides = [&recording.events, &recording.far, &recording.near];
    for (path, bytes) in paths.iter().zip(sides) {
        std::fs::write(path, bytes).map_err(|error| format!("{path}: {error}"))?;
    }
    Ok(paths)
}
