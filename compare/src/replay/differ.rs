//! Runs a replay program over random recordings and holds what it prints to the oracle's log.

use super::recordings::any;
use super::{told, Recording};
use crate::random::Random;
use std::process::Command;

const FOLDER: &str = "target/compare/replays";
const SHOWN: usize = 5;

/// Tries `count` recordings from a seed. Recordings that differ are kept in the folder under their number.
pub fn run(seed: u64, count: usize, program: &str) -> Result<(), String> {
    std::fs::create_dir_all(FOLDER).map_err(|error| format!("{FOLDER}: {error}"))?;
    let mut random = Random::new(seed);
    let (mut different, mut broken) = (0, 0);
    for number in 0..count {
        let recording = any(&mut random);
        let printed = printed(program, &recording)?;
        let (log, holes) = told(&recording);
        broken += (holes > 0) as usize;
        if printed == log.into_bytes() {
            continue;
        }
        different += 1;
        if different <= SHOWN {
            write(&recording, &format!("{number}."))?;
            println!(
                "replays: recording {number} differs, see {FOLDER}/{number}.events, .far and .near"
            );
        }
    }
    println!("replays: {count} tried, {broken} of them with holes in the near numbering, {different} different");
    if different > 0 {
        return Err("replays: the program and the original differ".to_string());
    }
    Ok(())
}

fn printed(program: &str, recording: &Recording) -> Result<Vec<u8>, String> {
    let paths = write(recording, "")?;
    let run = Command::new(program).args(paths).output();
    run.map(|output| output.stdout)
        .map_err(|error| format!("{program}: {error}"))
}

fn write(recording: &Recording, prefix: &str) -> Result<[String; 3], String> {
    let path = |name: &str| format!("{FOLDER}/{prefix}{name}");
    let paths = [path("events"), path("far"), path("near")];
    let sides = [&recording.events, &recording.far, &recording.near];
    for (path, bytes) in paths.iter().zip(sides) {
        std::fs::write(path, bytes).map_err(|error| format!("{path}: {error}"))?;
    }
    Ok(paths)
}
