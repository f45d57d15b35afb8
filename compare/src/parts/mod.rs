//! Where two logs part (request b): a plain referee, and a run of any program beside it.

mod logs;
mod referee;

use crate::random::Random;
use std::process::Command;

const FOLDER: &str = "target/compare/parts";
const SHOWN: usize = 5;

/// Tries `count` pairs of logs from a seed. Pairs that are judged differently are kept in the folder under their number.
pub fn run(seed: u64, count: usize, program: &str) -> Result<(), String> {
    std::fs::create_dir_all(FOLDER).map_err(|error| format!("{FOLDER}: {error}"))?;
    let mut random = Random::new(seed);
    let (mut different, mut statuses) = (0, [0; 9]);
    for number in 0..count {
        let pair = logs::pair(&mut random);
        let paths = write(&pair, "")?;
        let due = referee::due(&paths[0], &pair[0], &paths[1], &pair[1]);
        statuses[due.status as usize] += 1;
        let run = Command::new(program).args(&paths).output();
        let run = run.map_err(|error| format!("{program}: {error}"))?;
        if run.stdout == due.text && run.status.code() == Some(due.status) {
            continue;
        }
        different += 1;
        if different <= SHOWN {
            write(&pair, &format!("{number}."))?;
            println!("parts: pair {number} is judged differently, see {FOLDER}/{number}.first and .second");
        }
    }
    println!(
        "parts: {count} tried: {} same, {} parted, {} no logs; {different} different",
        statuses[0], statuses[3], statuses[8]
    );
    if different > 0 {
        return Err("parts: the program and the referee differ".to_string());
    }
    Ok(())
}

fn write(pair: &[Vec<u8>; 2], prefix: &str) -> Result<[String; 2], String> {
    let paths = ["first", "second"].map(|name| format!("{FOLDER}/{prefix}{name}"));
    for (path, bytes) in paths.iter().zip(pair) {
        std::fs::write(path, bytes).map_err(|error| format!("{path}: {error}"))?;
    }
    Ok(paths)
}

/// What parts_suite reads, and as `logs` what it must print: the logs of all pairs one behind the other, each side in a file of its own, and in the index how many bytes each has.
pub fn files(mut random: Random) -> Vec<(&'static str, Vec<u8>)> {
    let (mut index, mut first, mut second, mut logs) =
        (Vec::new(), Vec::new(), Vec::new(), Vec::new());
    while index.len() < 8 * 300 {
        let pair = logs::pair(&mut random);
        if pair.iter().any(|log| log.len() > 4_000) && index.len() % 80 != 0 {
            continue;
        }
        for log in &pair {
            index.extend_from_slice(&(log.len() as u32).to_le_bytes());
        }
        logs.extend_from_slice(&referee::due("first", &pair[0], "second", &pair[1]).text);
        first.extend_from_slice(&pair[0]);
        second.extend_from_slice(&pair[1]);
    }
    vec![
        ("index", index),
        ("first", first),
        ("second", second),
        ("logs", logs),
    ]
}

/// Two logs of so many lines, of which the second has one frame changed in its middle.
pub fn long(lines: u64) -> [Vec<u8>; 2] {
    let mut first = b"replay rate 48000 ceiling 500\n".to_vec();
    let mut second = first.clone();
    for n in 0..lines / 2 {
        let changed = if n == lines / 4 { "weak" } else { "quiet" };
        first.extend_from_slice(format!("frame {n} quiet\ncycle {n} hold\n").as_bytes());
        second.extend_from_slice(format!("frame {n} {changed}\ncycle {n} hold\n").as_bytes());
    }
    let end = format!("end frames {} cycles {}\n", lines / 2, lines / 2);
    first.extend_from_slice(end.as_bytes());
    second.extend_from_slice(end.as_bytes());
    [first, second]
}
