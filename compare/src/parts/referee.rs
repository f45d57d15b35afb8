//! What request b asks of a tool that reads two logs, written from its text and from the scope paper's forms of log lines: lines are read word by word, frames and cycles are
//! looked up by their numbers in a map, and nothing is merged.

use std::collections::BTreeMap;

/// What must be printed, and the status.
pub struct Due {
    pub text: Vec<u8>,
    pub status: i32,
}

#[derive(Clone, Copy, PartialEq)]
enum Sort {
    Header,
    Frame,
    Cycle,
    Refusal,
    Closing,
}

const SORTS: [(Sort, &str); 5] = [
    (Sort::Header, "header"),
    (Sort::Frame, "frame"),
    (Sort::Cycle, "cycle"),
    (Sort::Refusal, "refusal"),
    (Sort::Closing, "closing"),
];

/// A line of a log: its sort, its own number where it has one, and its text.
struct Line<'a> {
    sort: Sort,
    number: Option<u64>,
    text: &'a [u8],
}

pub fn due(first_name: &str, first: &[u8], second_name: &str, second: &[u8]) -> Due {
    let texts = [lines(first), lines(second)];
    let mut logs = Vec::new();
    for (name, texts) in [first_name, second_name].into_iter().zip(&texts) {
        match judged(texts) {
            Ok(log) => logs.push(log),
            Err(place) => return refused(name, texts, place),
        }
    }
    if texts[0] == texts[1] {
        return Due {
            text: b"same\n".to_vec(),
            status: 0,
        };
    }
    let place = texts[0]
        .iter()
        .zip(&texts[1])
        .take_while(|(x, y)| x == y)
        .count()
        + 1;
    Due {
        text: report(&logs[0], &logs[1], place),
        status: 3,
    }
}

/// Cut at each newline; what stands behind the last one is a line if it is not empty.
fn lines(bytes: &[u8]) -> Vec<&[u8]> {
    let mut lines: Vec<&[u8]> = bytes.split(|byte| *byte == b'\n').collect();
    if lines.last().is_some_and(|line| line.is_empty()) {
        lines.pop();
    }
    lines
}

/// The lines, or the place of the first that is none or whose number does not rise.
fn judged<'a>(texts: &[&'a [u8]]) -> Result<Vec<Line<'a>>, usize> {
    let mut log = Vec::new();
    let (mut frame, mut cycle) = (None, None);
    for (i, text) in texts.iter().enumerate() {
        let line = read(text).ok_or(i)?;
        let last = match line.sort {
            Sort::Frame => Some(&mut frame),
            Sort::Cycle => Some(&mut cycle),
            _ => None,
        };
        if let Some(last) = last {
            if *last >= line.number {
                return Err(i);
            }
            *last = line.number;
        }
        log.push(line);
    }
    Ok(log)
}

fn refused(name: &str, texts: &[&[u8]], place: usize) -> Due {
    let mut text = format!("refused 8: {name} line {}: ", place + 1).into_bytes();
    if read(texts[place]).is_some() {
        text.extend_from_slice(b"number does not rise: ");
    }
    if texts[place].len() > 75 {
        text.extend_from_slice(&texts[place][..75]);
        text.extend_from_slice(b" ..");
    } else {
        text.extend_from_slice(texts[place]);
    }
    text.push(b'\n');
    Due { text, status: 8 }
}

fn read(text: &[u8]) -> Option<Line<'_>> {
    let words: Vec<&str> = std::str::from_utf8(text).ok()?.split(' ').collect();
    let own = |sort, number| {
        Some(Line {
            sort,
            number: Some(number),
            text,
        })
    };
    let plain = |sort| {
        Some(Line {
            sort,
            number: None,
            text,
        })
    };
    match words[..] {
        ["replay", "rate", rate, "ceiling", ceiling] => {
            let good = (8_000..=192_000).contains(&number(rate)?)
                && (1..=4_000).contains(&number(ceiling)?);
            if good {
                plain(Sort::Header)
            } else {
                None
            }
        }
        ["frame", n, "uncovered" | "ahead" | "quiet" | "flat" | "weak" | "ceiling" | "crowded"] => {
            own(Sort::Frame, number(n)?)
        }
        ["frame", n, "banked", peak] => {
            below(peak, 1 << 32)?;
            own(Sort::Frame, number(n)?)
        }
        ["frame", n, "region", delay, correlation] => {
            below(delay, 1 << 62)?;
            number(correlation)?;
            own(Sort::Frame, number(n)?)
        }
        ["cycle", n, "hold"] => own(Sort::Cycle, number(n)?),
        ["cycle", n, "move", delay] => {
            below(delay, 1 << 62)?;
            own(Sort::Cycle, number(n)?)
        }
        ["cycle", n, "reacquire", "edge" | "lost" | "jump" | "seam"] => {
            own(Sort::Cycle, number(n)?)
        }
        ["event", event, "refused", refusal] => {
            below(event, 1 << 32)?;
            if (1..=7).contains(&number(refusal)?) {
                plain(Sort::Refusal)
            } else {
                None
            }
        }
        ["end", "frames", frames, "cycles", cycles] => {
            number(frames)?;
            number(cycles)?;
            plain(Sort::Closing)
        }
        ["bad", "header"] | ["bad", "totals"] => plain(Sort::Closing),
        ["bad", "event", event] => {
            below(event, 1 << 32)?;
            plain(Sort::Closing)
        }
        _ => None,
    }
}

/// A number of 64 bits in decimal, with no zero in front.
fn number(word: &str) -> Option<u64> {
    let digits = !word.is_empty() && word.bytes().all(|byte| byte.is_ascii_digit());
    if !digits || (word.len() > 1 && word.starts_with('0')) {
        return None;
    }
    word.parse().ok()
}

fn below(word: &str, end: u64) -> Option<u64> {
    number(word).filter(|n| *n < end)
}

fn report(first: &[Line], second: &[Line], place: usize) -> Vec<u8> {
    let mut text = Vec::new();
    for (sort, heading) in SORTS {
        let pair = match sort {
            Sort::Frame | Sort::Cycle => differing(first, second, sort).into_iter().next(),
            _ => first_in_order(&of(first, sort), &of(second, sort)),
        };
        if let Some((x, y)) = pair {
            text.extend_from_slice(heading.as_bytes());
            for (mark, side) in [("\n< ", x), ("\n> ", y)] {
                text.extend_from_slice(mark.as_bytes());
                text.extend_from_slice(side.unwrap_or(b"nothing"));
            }
            text.push(b'\n');
        }
    }
    if text.is_empty() {
        text.extend_from_slice(format!("order: line {place}\n").as_bytes());
    }
    let count = |sort| differing(first, second, sort).len();
    text.extend_from_slice(
        format!(
            "differing frames {} cycles {}\n",
            count(Sort::Frame),
            count(Sort::Cycle)
        )
        .as_bytes(),
    );
    text
}

type Pair<'a> = (Option<&'a [u8]>, Option<&'a [u8]>);

/// Both texts of every number under which the logs have not the same, from the least on.
fn differing<'a>(first: &[Line<'a>], second: &[Line<'a>], sort: Sort) -> Vec<Pair<'a>> {
    let mut numbers: BTreeMap<u64, Pair<'a>> = BTreeMap::new();
    for line in first.iter().filter(|line| line.sort == sort) {
        numbers.entry(line.number.unwrap()).or_default().0 = Some(line.text);
    }
    for line in second.iter().filter(|line| line.sort == sort) {
        numbers.entry(line.number.unwrap()).or_default().1 = Some(line.text);
    }
    numbers.into_values().filter(|(x, y)| x != y).collect()
}

fn of<'a>(log: &[Line<'a>], sort: Sort) -> Vec<&'a [u8]> {
    log.iter()
        .filter(|line| line.sort == sort)
        .map(|line| line.text)
        .collect()
}

/// The n-th with the n-th.
fn first_in_order<'a>(first: &[&'a [u8]], second: &[&'a [u8]]) -> Option<Pair<'a>> {
    let most = first.len().max(second.len());
    (0..most)
        .map(|i| (first.get(i).copied(), second.get(i).copied()))
        .find(|(x, y)| x != y)
}
