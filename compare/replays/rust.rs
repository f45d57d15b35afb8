//! Replays in Rust around the unchanged scan and tracker, over good recordings. They read as our program does, in pieces of 65,536 bytes, and write a line for each frame and cycle with what the
//! original tells of it. `replay` judges nothing: what the original does not test is not tested. `refusing` makes the scope paper's tests too: of header, events and totals, of samples and of indices.

use crate::coarse::CoarseScan;
use crate::inputs::Inputs;
use crate::replay::{EVENT_LEN, HEADER_LEN, LIMIT, MOST_SAMPLES};
use crate::track::{CycleOutcome, Tracker};
use std::io::Write;

const PIECE: usize = 65_536;

/// One of the three files, read piece by piece.
struct Stream {
    which: usize,
    bytes: Vec<u8>,
    at: usize,
    end: usize,
}

impl Stream {
    fn new(which: usize) -> Stream {
        Stream {
            which,
            bytes: vec![0; PIECE],
            at: 0,
            end: 0,
        }
    }

    /// The next `count` bytes.
    fn next(&mut self, inputs: &mut Inputs, count: usize) -> &[u8] {
        if self.end - self.at < count {
            self.bytes.copy_within(self.at..self.end, 0);
            self.end -= self.at;
            self.at = 0;
            while self.end < count {
                let read = inputs.read(self.which, &mut self.bytes[self.end..]);
                assert!(read > 0, "file {} is short", self.which);
                self.end += read;
            }
        }
        self.at += count;
        &self.bytes[self.at - count..self.at]
    }

    fn samples(&mut self, inputs: &mut Inputs, count: usize, into: &mut Vec<f32>) {
        let bytes = self.next(inputs, 4 * count);
        into.clear();
        into.extend(bytes.chunks_exact(4).map(|four| f32::from_le_bytes(four.try_into().unwrap())));
    }
}

fn u32_at(bytes: &[u8], at: usize) -> u32 {
    u32::from_le_bytes(bytes[at..at + 4].try_into().unwrap())
}

struct Run {
    scan: CoarseScan,
    tracker: Tracker,
    frames: u64,
    cycles: u64,
    log: Vec<u8>,
}

pub fn replay(inputs: &mut Inputs) -> Vec<u8> {
    play::<false>(inputs)
}

pub fn refusing(inputs: &mut Inputs) -> Vec<u8> {
    play::<true>(inputs)
}

fn play<const REFUSES: bool>(inputs: &mut Inputs) -> Vec<u8> {
    let (mut events, mut far, mut near) = (Stream::new(0), Stream::new(1), Stream::new(2));
    let header = events.next(inputs, HEADER_LEN);
    let field = |at: usize| u32_at(header, 4 * at);
    let (rate, ceiling, count, offset) = (field(0), field(1), field(2), field(3));
    let mut left = [field(4), field(5)];
    if REFUSES {
        let allowed = (8000..=192_000).contains(&rate) && (1..=4000).contains(&ceiling);
        assert!(allowed && offset == HEADER_LEN as u32, "a bad header");
    }
    let mut run = Run {
        scan: CoarseScan::new(rate, ceiling as u16),
        tracker: Tracker::new(rate),
        frames: 0,
        cycles: 0,
        log: Vec::new(),
    };
    writeln!(run.log, "replay rate {rate} ceiling {ceiling}").unwrap();
    let mut samples = Vec::new();
    for at in 0..count {
        let event = events.next(inputs, EVENT_LEN);
        let (kind, count) = (u32_at(event, 0), u32_at(event, 4));
        let number = u64::from_le_bytes(event[8..16].try_into().unwrap());
        if REFUSES {
            assert!(good(kind, count, number, &mut left), "bad event {at}");
        }
        match kind {
            1 => {
                far.samples(inputs, count as usize, &mut samples);
                if REFUSES && !samples.iter().all(|sample| sample.is_finite()) {
                    writeln!(run.log, "event {at} refused 4").unwrap();
                    continue;
                }
                run.scan.push_far(&samples);
            }
            2 => {
                near.samples(inputs, count as usize, &mut samples);
                if let Err(refusal) = run.near::<REFUSES>(&samples, number) {
                    writeln!(run.log, "event {at} refused {refusal}").unwrap();
                }
            }
            3 => run.scan.rearm(),
            4 => run.scan.discard_near(),
            8 => run.tracker.on_discontinuity(),
            _ if REFUSES && number >= LIMIT => writeln!(run.log, "event {at} refused 5").unwrap(),
            kind => run.cycle(kind, count as usize, number as usize),
        }
    }
    assert!(!REFUSES || left == [0, 0], "bad totals");
    writeln!(run.log, "end frames {} cycles {}", run.frames, run.cycles).unwrap();
    run.log
}

/// The scope paper's tests of an event; the samples that it takes are no longer left.
fn good(kind: u32, count: u32, number: u64, left: &mut [u32; 2]) -> bool {
    match kind {
        1 | 2 => {
            let left = &mut left[kind as usize - 1];
            let good = (1..=MOST_SAMPLES).contains(&count) && (kind == 2 || number == 0) && count <= *left;
            *left = left.wrapping_sub(count);
            good
        }
        3 | 4 | 5 | 8 => count == 0 && number == 0,
        kind => kind == 6 || kind == 7,
    }
}

impl Run {
    fn near<const REFUSES: bool>(&mut self, samples: &[f32], first: u64) -> Result<(), u8> {
        for (index, &sample) in (first..).zip(samples) {
            if REFUSES && !self.scan.finished() {
                if index >= LIMIT {
                    return Err(5);
                }
                if !sample.is_finite() {
                    return Err(4);
                }
            }
            if self.scan.push_near(sample, index) {
                self.scan.observe();
                let peak = self.scan.correlation().to_bits();
                writeln!(self.log, "frame {} {peak}", self.frames).unwrap();
                self.frames += 1;
            }
        }
        Ok(())
    }

    fn cycle(&mut self, kind: u32, alignment: usize, delay: usize) {
        let outcome = match kind {
            5 => CycleOutcome::Unconfident,
            kind => CycleOutcome::Candidate {
                delay,
                interior: kind == 6,
            },
        };
        let verdict = self.tracker.on_cycle(alignment, outcome);
        writeln!(self.log, "cycle {} {verdict:?}", self.cycles).unwrap();
        self.cycles += 1;
    }
}
