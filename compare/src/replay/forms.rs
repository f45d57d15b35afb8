//! The forms of a recording (request g), and what a conversion makes of one: by the processor's own division, and by the log.

use super::{log, number, Recording, EVENT_LEN, HEADER_LEN};

/// Where the events begin, which sample kind the header names behind its first six fields, and how many bytes a sample has.
#[derive(Clone, Copy, PartialEq)]
pub struct Form {
    pub offset: usize,
    pub kind: Option<u32>,
    pub width: usize,
}

const fn form(offset: usize, kind: Option<u32>, width: usize) -> Form {
    Form {
        offset,
        kind,
        width,
    }
}

pub const PLAIN: Form = form(24, None, 4);
pub const FLOATS: Form = form(28, Some(1), 4);
pub const SHORTS: Form = form(28, Some(2), 2);

impl Form {
    /// The form that a header tells, if it tells one.
    pub fn of(events: &[u8]) -> Option<Form> {
        let offset = number(events.get(12..16)?);
        if offset == HEADER_LEN as u64 {
            return Some(PLAIN);
        }
        let kind = number(events.get(24..28)?) as u32;
        [FLOATS, SHORTS]
            .into_iter()
            .find(|form| offset == form.offset as u64 && form.kind == Some(kind))
    }

    pub fn sample(self, bytes: &[u8]) -> f32 {
        if self.width == 2 {
            return quotient(number(bytes) as u16);
        }
        f32::from_bits(number(bytes) as u32)
    }
}

fn quotient(bits: u16) -> f32 {
    bits as i16 as f32 / 32_768.0
}

/// The number whose quotient has this pattern, if there is one: by the product, which is exact where it is one.
fn short(pattern: u32) -> Option<u16> {
    let product = f32::from_bits(pattern) * 32_768.0;
    let number = product as i16; // saturates, and a NaN is 0
    (quotient(number as u16).to_bits() == pattern).then_some(number as u16)
}

/// One sample's bytes in the other form, if it has them.
fn converted(from: Form, bytes: &[u8]) -> Option<Vec<u8>> {
    if from.width == 2 {
        let sample = quotient(number(bytes) as u16);
        return Some(sample.to_bits().to_le_bytes().to_vec());
    }
    short(number(bytes) as u32).map(|number| number.to_le_bytes().to_vec())
}

/// The header's six fields, with the offset and the kind of the form.
pub fn header(events: &[u8], form: Form) -> Vec<u8> {
    let mut header = events[..HEADER_LEN].to_vec();
    header[12..16].copy_from_slice(&(form.offset as u32).to_le_bytes());
    header.extend(form.kind.into_iter().flat_map(u32::to_le_bytes));
    header
}

/// The same recording as a sibling with f32 samples.
pub fn as_floats(plain: &Recording) -> Recording {
    let mut events = header(&plain.events, FLOATS);
    events.extend(&plain.events[HEADER_LEN..]);
    Recording {
        events,
        ..plain.clone()
    }
}

/// The same recording with 16-bit samples: each is cut to the next such quotient.
pub fn as_shorts(plain: &Recording) -> Recording {
    let cut = |bytes: &[u8]| -> Vec<u8> {
        let samples = bytes.chunks_exact(4).map(|piece| PLAIN.sample(piece));
        samples
            .flat_map(|sample| ((sample * 32_768.0) as i16).to_le_bytes())
            .collect()
    };
    let mut events = header(&plain.events, SHORTS);
    events.extend(&plain.events[HEADER_LEN..]);
    Recording {
        events,
        far: cut(&plain.far),
        near: cut(&plain.near),
    }
}

/// What a conversion prints, its status, and what it leaves, if it leaves anything.
pub struct Due {
    pub line: String,
    pub status: i32,
    pub given: Option<Recording>,
}

fn field(events: &[u8], at: usize) -> usize {
    number(&events[4 * at..4 * at + 4]) as usize
}

/// A recording up to the end that its header announces.
pub fn announced(recording: &Recording) -> Recording {
    let form = Form::of(&recording.events).unwrap();
    let of = |at: usize| field(&recording.events, at);
    let cut = |bytes: &[u8], len: usize| bytes[..len.min(bytes.len())].to_vec();
    Recording {
        events: cut(&recording.events, form.offset + EVENT_LEN * of(2)),
        far: cut(&recording.far, form.width * of(4)),
        near: cut(&recording.near, form.width * of(5)),
    }
}

/// Converts by the request's text: 12 before all else, then event by event.
pub fn convert(to_floats: bool, recording: &Recording) -> Due {
    let (from, to) = if to_floats { (SHORTS, PLAIN) } else { (PLAIN, SHORTS) };
    let log = log(recording);
    let last = log.lines().last().unwrap_or("");
    let refused = |why: &str| Due {
        line: format!("refused 12: {why}\n"),
        status: 12,
        given: None,
    };
    if last == "bad header" {
        return refused(last);
    }
    if Form::of(&recording.events) != Some(from) {
        return refused(if to_floats {
            "to-floats takes a recording of sample kind 2"
        } else {
            "to-shorts takes a recording with event offset 24"
        });
    }
    if last.starts_with("bad") {
        return refused(last);
    }
    let mut given = Recording {
        events: header(&recording.events, to),
        ..Recording::default()
    };
    let mut used = [0, 0];
    for at in 0..field(&recording.events, 2) {
        let first = from.offset + EVENT_LEN * at;
        let entry = &recording.events[first..first + EVENT_LEN];
        let side = match field(entry, 0) {
            1 => 0,
            2 => 1,
            _ => {
                given.events.extend(entry);
                continue;
            }
        };
        let bytes = [&recording.far, &recording.near][side];
        let count = field(entry, 1);
        let mut samples = Vec::new();
        for step in 0..count {
            let place = used[side] + step;
            let piece = &bytes[from.width * place..from.width * (place + 1)];
            let Some(bytes) = converted(from, piece) else {
                let name = ["far", "near"][side];
                return Due {
                    line: format!("refused 10: event {at}, sample {step} of it, {name} sample {place}\n"),
                    status: 10,
                    given: Some(given),
                };
            };
            samples.extend(bytes);
        }
        used[side] += count;
        given.events.extend(entry);
        [&mut given.far, &mut given.near][side].extend(samples);
    }
    let events = field(&recording.events, 2);
    Due {
        line: format!("converted: {events} events, {} far and {} near samples\n", used[0], used[1]),
        status: 0,
        given: Some(given),
    }
}
