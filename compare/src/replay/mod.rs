//! The scope paper's replay around the unchanged scan and tracker: a recording in, its log out.

pub mod checks;
pub mod conversions;
pub mod differ;
pub mod forms;
pub mod maker;
pub mod recordings;

use crate::coarse::{CoarseScan, FrameAnswer};
use crate::delay::ReacquireTrigger;
use crate::track::{CycleOutcome, TrackVerdict, Tracker};
use forms::Form;

/// The three inputs.
#[derive(Clone, Default)]
pub struct Recording {
    pub events: Vec<u8>,
    pub far: Vec<u8>,
    pub near: Vec<u8>,
}

pub const HEADER_LEN: usize = 24;
pub const EVENT_LEN: usize = 16;
pub const MOST_SAMPLES: u32 = 4096;
/// Indices and delays are below it.
pub const LIMIT: u64 = 1 << 62;

const NOT_FINITE: u8 = 4;
const TOO_LARGE: u8 = 5;

/// The log, each line with its line end.
pub fn log(recording: &Recording) -> String {
    told(recording).0
}

/// The log, and how many near samples met a hole.
pub fn told(recording: &Recording) -> (String, u64) {
    let (lines, holes) = match Run::new(recording) {
        None => (vec!["bad header".to_string()], 0),
        Some(mut run) => {
            run.play();
            (run.lines, run.holes)
        }
    };
    (
        lines.iter().map(|line| format!("{line}\n")).collect(),
        holes,
    )
}

/// An event, or what makes it bad.
#[derive(Clone, Copy)]
struct Event {
    kind: u32,
    count: u32,
    number: u64,
}

/// The samples of one side: those that are there, those that are announced and those that were used.
struct Side<'a> {
    form: Form,
    bytes: &'a [u8],
    total: u64,
    used: u64,
}

impl Side<'_> {
    fn has(&self, count: u32) -> bool {
        let end = self.used + count as u64;
        end <= self.total && self.form.width as u64 * end <= self.bytes.len() as u64
    }

    fn take(&mut self, count: u32) -> Vec<f32> {
        let first = self.used as usize;
        self.used += count as u64;
        let pieces = self.bytes.chunks_exact(self.form.width).skip(first);
        let pieces = pieces.take(count as usize);
        pieces.map(|piece| self.form.sample(piece)).collect()
    }
}

struct Run<'a> {
    form: Form,
    events: &'a [u8],
    count: u32,
    far: Side<'a>,
    near: Side<'a>,
    scan: CoarseScan,
    /// The index of the last near sample that was taken.
    last: u64,
    holes: u64,
    tracker: Tracker,
    frames: u64,
    cycles: u64,
    lines: Vec<String>,
}

/// A little-endian number of up to eight bytes.
pub fn number(bytes: &[u8]) -> u64 {
    bytes
        .iter()
        .rev()
        .fold(0, |number, &byte| number << 8 | byte as u64)
}

impl Run<'_> {
    /// Nothing for a bad header.
    fn new(recording: &Recording) -> Option<Run<'_>> {
        let header = recording.events.get(..HEADER_LEN)?;
        let field = |at: usize| number(&header[4 * at..4 * at + 4]) as u32;
        let (rate, ceiling) = (field(0), field(1));
        let allowed = (8000..=192_000).contains(&rate) && (1..=4000).contains(&ceiling);
        let form = Form::of(&recording.events).filter(|_| allowed)?;
        let side = |bytes, total| Side {
            form,
            bytes,
            total,
            used: 0,
        };
        Some(Run {
            form,
            events: &recording.events,
            count: field(2),
            far: side(&recording.far, field(4) as u64),
            near: side(&recording.near, field(5) as u64),
            scan: CoarseScan::new(rate, ceiling as u16),
            last: 0,
            holes: 0,
            tracker: Tracker::new(rate),
            frames: 0,
            cycles: 0,
            lines: vec![format!("replay rate {rate} ceiling {ceiling}")],
        })
    }

    fn play(&mut self) {
        for at in 0..self.count {
            let Some(event) = self.event(at) else {
                self.lines.push(format!("bad event {at}"));
                return;
            };
            if let Err(refusal) = self.done(event) {
                self.lines.push(format!("event {at} refused {refusal}"));
            }
        }
        let all_used = self.far.used == self.far.total && self.near.used == self.near.total;
        self.lines.push(if all_used {
            format!("end frames {} cycles {}", self.frames, self.cycles)
        } else {
            "bad totals".to_string()
        });
    }

    /// Nothing for a bad event.
    fn event(&self, at: u32) -> Option<Event> {
        let first = self.form.offset + EVENT_LEN * at as usize;
        let bytes = self.events.get(first..first + EVENT_LEN)?;
        let kind = number(&bytes[..4]) as u32;
        let count = number(&bytes[4..8]) as u32;
        let number = number(&bytes[8..]);
        let counted = (1..=MOST_SAMPLES).contains(&count);
        let good = match kind {
            1 => counted && number == 0 && self.far.has(count),
            2 => counted && self.near.has(count),
            3 | 4 | 5 | 8 => count == 0 && number == 0,
            6 | 7 => true,
            _ => false,
        };
        good.then_some(Event {
            kind,
            count,
            number,
        })
    }

    /// Does one good event, up to its refusal.
    fn done(&mut self, event: Event) -> Result<(), u8> {
        match event.kind {
            1 => self.far_event(event.count),
            2 => self.near_event(event.count, event.number),
            3 => Ok(self.scan.rearm()),
            4 => Ok(self.scan.discard_near()),
            8 => Ok(self.tracker.on_discontinuity()),
            _ => self.cycle(event),
        }
    }

    /// One push: a sample that is not finite refuses all of it.
    fn far_event(&mut self, count: u32) -> Result<(), u8> {
        let samples = self.far.take(count);
        if samples.iter().any(|sample| !sample.is_finite()) {
            return Err(NOT_FINITE);
        }
        self.scan.push_far(&samples);
        Ok(())
    }

    /// One by one, each full frame scored at once.
    fn near_event(&mut self, count: u32, first: u64) -> Result<(), u8> {
        for (step, sample) in self.near.take(count).into_iter().enumerate() {
            if self.scan.finished() {
                continue;
            }
            let index = first as u128 + step as u128;
            if index >= LIMIT as u128 {
                return Err(TOO_LARGE);
            }
            let index = index as u64;
            if !self.scan.drops(self.last, index) && !sample.is_finite() {
                return Err(NOT_FINITE);
            }
            self.holes += self.scan.meets_hole(self.last, index) as u64;
            if self.scan.push_numbered(&mut self.last, sample, index) {
                let word = frame_words(self.scan.scored());
                self.lines.push(format!("frame {} {word}", self.frames));
                self.frames += 1;
            }
        }
        Ok(())
    }

    fn cycle(&mut self, event: Event) -> Result<(), u8> {
        if event.number >= LIMIT {
            return Err(TOO_LARGE);
        }
        let outcome = match event.kind {
            5 => CycleOutcome::Unconfident,
            kind => CycleOutcome::Candidate {
                delay: event.number as usize,
                interior: kind == 6,
            },
        };
        let verdict = self.tracker.on_cycle(event.count as usize, outcome);
        let words = verdict_words(verdict);
        self.lines.push(format!("cycle {} {words}", self.cycles));
        self.cycles += 1;
        Ok(())
    }
}

fn frame_words(answer: FrameAnswer) -> String {
    match answer {
        FrameAnswer::Uncovered => "uncovered".to_string(),
        FrameAnswer::Ahead => "ahead".to_string(),
        FrameAnswer::Quiet => "quiet".to_string(),
        FrameAnswer::Flat => "flat".to_string(),
        FrameAnswer::Banked(peak) => format!("banked {}", peak.to_bits()),
        FrameAnswer::Weak => "weak".to_string(),
        FrameAnswer::Ceiling => "ceiling".to_string(),
        FrameAnswer::Crowded => "crowded".to_string(),
        FrameAnswer::Region(region) => format!("region {} {}", region.delay, region.corr.to_bits()),
    }
}

fn verdict_words(verdict: TrackVerdict) -> String {
    match verdict {
        TrackVerdict::Hold => "hold".to_string(),
        TrackVerdict::Move(to) => format!("move {to}"),
        TrackVerdict::Reacquire(trigger) => format!("reacquire {}", trigger_word(trigger)),
    }
}

fn trigger_word(trigger: ReacquireTrigger) -> &'static str {
    match trigger {
        ReacquireTrigger::TrackingEdge => "edge",
        ReacquireTrigger::ConfidenceLost => "lost",
        ReacquireTrigger::EstimatorJumping => "jump",
        ReacquireTrigger::Discontinuity => "seam",
    }
}
