//! Pairs of logs: the same, with one line changed, with lines missing or more, renumbered, in another order, and texts that are no logs.

use crate::random::Random;

type Log = Vec<Vec<u8>>;

/// The bytes of two logs.
pub fn pair(random: &mut Random) -> [Vec<u8>; 2] {
    let lines = random.one_of(&[0, 1, 3, 8, 30, 200]);
    let log = log(random, lines);
    let mut other = log.clone();
    for _ in 0..random.one_of(&[0, 1, 1, 1, 2, 5]) {
        change(random, &mut other);
    }
    if random.once_in(12) {
        let lines = random.one_of(&[0, 5, 40]);
        other = self::log(random, lines);
    }
    let mut log = log;
    if random.once_in(4) {
        let both = [&mut log, &mut other];
        let which = random.below(2) as usize;
        spoil(random, both.into_iter().nth(which).unwrap());
    }
    let mut texts = [joined(random, &log), joined(random, &other)];
    if random.once_in(2) {
        texts.swap(0, 1);
    }
    texts
}

/// Each line with its newline, the last now and then without.
fn joined(random: &mut Random, log: &Log) -> Vec<u8> {
    let mut text: Vec<u8> = log
        .iter()
        .flat_map(|line| line.iter().copied().chain([b'\n']))
        .collect();
    if random.once_in(5) {
        text.pop();
    }
    text
}

fn log(random: &mut Random, lines: usize) -> Log {
    let (mut frame, mut cycle) = (0, 0);
    let mut log = vec![header(random)];
    let gaps = random.one_of(&[1, 1, 3]);
    for _ in 0..lines {
        match random.below(10) {
            0..=5 => {
                log.push(frame_line(random, frame));
                frame += random.between(1, gaps);
            }
            6..=8 => {
                log.push(cycle_line(random, cycle));
                cycle += random.between(1, gaps);
            }
            _ => log.push(refusal(random)),
        }
    }
    log.push(closing(random, frame, cycle));
    if random.once_in(20) {
        log.push(header(random));
    }
    log
}

fn header(random: &mut Random) -> Vec<u8> {
    let rate = random.one_of(&[8_000, 16_000, 48_000, 192_000]);
    format!(
        "replay rate {rate} ceiling {}",
        random.one_of(&[1, 500, 4_000])
    )
    .into_bytes()
}

fn wide(random: &mut Random) -> u64 {
    let bits = random.below(64);
    random.word() >> bits
}

fn frame_line(random: &mut Random, n: u64) -> Vec<u8> {
    let words = [
        "uncovered",
        "ahead",
        "quiet",
        "flat",
        "weak",
        "ceiling",
        "crowded",
    ];
    match random.below(4) {
        0 => format!("frame {n} banked {}", wide(random) as u32),
        1 => format!("frame {n} region {} {}", wide(random) >> 2, wide(random)),
        _ => format!("frame {n} {}", random.one_of(&words)),
    }
    .into_bytes()
}

fn cycle_line(random: &mut Random, n: u64) -> Vec<u8> {
    match random.below(4) {
        0 => format!("cycle {n} move {}", wide(random) >> 2),
        1 => format!(
            "cycle {n} reacquire {}",
            random.one_of(&["edge", "lost", "jump", "seam"])
        ),
        _ => format!("cycle {n} hold"),
    }
    .into_bytes()
}

fn refusal(random: &mut Random) -> Vec<u8> {
    format!(
        "event {} refused {}",
        wide(random) as u32,
        random.between(1, 7)
    )
    .into_bytes()
}

fn closing(random: &mut Random, frames: u64, cycles: u64) -> Vec<u8> {
    match random.below(6) {
        0 => "bad header".to_string(),
        1 => format!("bad event {}", wide(random) as u32),
        2 => "bad totals".to_string(),
        _ => format!("end frames {frames} cycles {cycles}"),
    }
    .into_bytes()
}

/// A change after which it is still a log, as a rule.
fn change(random: &mut Random, log: &mut Log) {
    let at = random.below(log.len() as u64) as usize;
    match random.below(7) {
        0 => {
            log.remove(at);
            if log.is_empty() {
                log.push(header(random));
            }
        }
        1 => log.insert(at, refusal(random)),
        2 => log.truncate(at + 1),
        3 => {
            let next = (at + 1) % log.len();
            log.swap(at, next);
        }
        4 => renumber(log, at, random.between(1, 3)),
        _ => log[at] = like(random, &log[at]),
    }
}

/// Another line of the same sort and number.
fn like(random: &mut Random, line: &[u8]) -> Vec<u8> {
    let text = String::from_utf8_lossy(line).to_string();
    let number = text
        .split(' ')
        .nth(1)
        .and_then(|word| word.parse().ok())
        .unwrap_or(0);
    match text.split(' ').next() {
        Some("replay") => header(random),
        Some("frame") => frame_line(random, number),
        Some("cycle") => cycle_line(random, number),
        Some("event") => refusal(random),
        _ => closing(random, 7, 9),
    }
}

/// From there on every frame has a number so much larger.
fn renumber(log: &mut Log, from: usize, by: u64) {
    for line in log.iter_mut().skip(from) {
        let text = String::from_utf8_lossy(line).to_string();
        let words: Vec<&str> = text.splitn(3, ' ').collect();
        if let ["frame", n, rest] = words[..] {
            *line = format!(
                "frame {} {rest}",
                n.parse::<u64>().unwrap().saturating_add(by)
            )
            .into_bytes();
        }
    }
}

/// A change after which it is no log.
fn spoil(random: &mut Random, log: &mut Log) {
    let at = random.below(log.len() as u64) as usize;
    let line = &mut log[at];
    match random.below(12) {
        0 => line.push(b'\r'),
        1 => line.push(b' '),
        2 => line.clear(),
        3 => line.push(0),
        4 => *line = b"frame 03 weak".to_vec(),
        5 => *line = b"replay rate 7999 ceiling 500".to_vec(),
        6 => *line = b"event 4 refused 8".to_vec(),
        7 => {
            let more = random.one_of(&[1, 60, 76, 77, 300, 70_000]);
            line.extend(std::iter::repeat(b'7').take(more));
        }
        8 => *line = b"frame 18446744073709551616 weak".to_vec(),
        9 => line.push(0xff),
        10 => {
            let again = line.clone();
            log.insert(at, again);
        }
        _ => {
            line.remove(0);
        }
    }
}
