//! Recordings with their logs, one input behind the other in a file each, and what a checker must say of each log: of the log itself, and of the log without its last two bytes.

use super::Files;
use crate::random::Random;
use crate::record::Record;
use crate::replay::recordings::{all, demo};
use crate::replay::checks::verdict;
use crate::replay::{log, Recording};

pub fn files(mut random: Random) -> Files {
    let mut index = Record::default();
    let mut sides = Recording::default();
    let mut logs = Vec::new();
    let mut verdicts = Vec::new();
    let mut names = Vec::new();
    for (number, (name, recording)) in all(&mut random).0.into_iter().enumerate() {
        let log = log(&recording);
        let Recording { events, far, near } = recording;
        index.u32(events.len() as u32).u32(far.len() as u32);
        index.u32(near.len() as u32).u32(log.len() as u32);
        sides.events.extend(events);
        sides.far.extend(far);
        sides.near.extend(near);
        let log = log.into_bytes();
        verdicts.extend(verdict(&log, &log).1);
        verdicts.extend(verdict(&log[..log.len() - 2], &log).1);
        logs.extend(log);
        names.extend(format!("{number} {}\n", name).into_bytes());
    }
    vec![
        ("index", index.0),
        ("events", sides.events),
        ("far", sides.far),
        ("near", sides.near),
        ("logs", logs),
        ("verdicts", verdicts),
        ("names", names),
    ]
}

pub fn demo_files(mut random: Random) -> Files {
    let recording = demo(&mut random);
    let log = log(&recording).into_bytes();
    vec![
        ("events", recording.events),
        ("far", recording.far),
        ("near", recording.near),
        ("log", log),
    ]
}
