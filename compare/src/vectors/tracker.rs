//! Tracker cycles: random walks of moods over every class of rate, with candidates on, beside and far from each band's edge.

use super::Files;
use crate::delay::ReacquireTrigger;
use crate::random::Random;
use crate::record::Record;
use crate::track::{CycleOutcome, Fields, TrackVerdict, Tracker};

const RATES: [u32; 12] = [
    8000, 8500, 11025, 12000, 16000, 22050, 32000, 44100, 48000, 88200, 96000, 192000,
];
const CYCLES: usize = 24_000;
const CALLS_A_WALK: usize = 100;
/// Delays and alignments are below it.
const LIMIT: u64 = 1 << 62;

const MAKE: u8 = 1;
const SET: u8 = 2;
const UNCONFIDENT: u8 = 5;
const INTERIOR: u8 = 6;
const EDGE: u8 = 7;
const DISCONTINUITY: u8 = 8;

pub fn files(mut random: Random) -> Files {
    let mut cycles = Record::default();
    let mut walks = 0;
    let mut count = 0;
    while count < CYCLES {
        let rate = match RATES.get(walks % (RATES.len() + 2)) {
            Some(&rate) => rate,
            None => random.between(8000, 192_000) as u32,
        };
        count += Walk::new(rate).run(&mut random, &mut cycles);
        walks += 1;
    }
    eprintln!("tracker: {walks} walks, {count} cycles");
    vec![("bands", bands(&mut random)), ("cycles", cycles.0)]
}

/// Six u32: the rate and its five bands, for each thousand, its neighbours, the common rates and some at random.
fn bands(random: &mut Random) -> Vec<u8> {
    let mut rates = RATES.to_vec();
    for thousand in 8..=192 {
        rates.extend([thousand * 1000 - 1, thousand * 1000, thousand * 1000 + 1]);
    }
    rates.extend((0..400).map(|_| random.between(8000, 192_000) as u32));
    rates.retain(|rate| (8000..=192_000).contains(rate));
    let mut out = Record::default();
    for rate in rates {
        out.u32(rate);
        for band in Tracker::new(rate).bands() {
            out.u32(band as u32);
        }
    }
    out.0
}

/// What a walk is inclined to do for a while, so that every run of cycles that a trigger waits for comes about.
#[derive(Clone, Copy)]
enum Mood {
    Mixed,
    Silent,
    Pinned,
    Jumping,
    Moving,
    Steady,
}

const MOODS: [Mood; 6] = [
    Mood::Mixed,
    Mood::Silent,
    Mood::Pinned,
    Mood::Jumping,
    Mood::Moving,
    Mood::Steady,
];

/// One tracker from its making on.
struct Walk {
    rate: u32,
    tracker: Tracker,
    alignment: u64,
    mood: Mood,
    /// The running maximum of `jump_cycles()`, from the making or from a made-up state on.
    largest: u32,
}

impl Walk {
    fn new(rate: u32) -> Walk {
        Walk {
            rate,
            tracker: Tracker::new(rate),
            alignment: 0,
            mood: Mood::Mixed,
            largest: 0,
        }
    }

    /// Answers how many cycles it wrote.
    fn run(&mut self, random: &mut Random, out: &mut Record) -> usize {
        self.alignment = alignment(random);
        self.write(MAKE, 0, None, out);
        let mut cycles = 0;
        for _ in 0..CALLS_A_WALK {
            if random.once_in(8) {
                self.mood = random.one_of(&MOODS);
            }
            if random.once_in(30) {
                self.alignment = alignment(random);
            }
            match random.below(60) {
                0 => {
                    self.tracker.set_fields(made_up(random));
                    self.largest = 0;
                    self.write(SET, 0, None, out);
                }
                1 => {
                    self.tracker.on_discontinuity();
                    self.write(DISCONTINUITY, 0, None, out);
                }
                _ => {
                    self.cycle(random, out);
                    cycles += 1;
                }
            }
        }
        cycles
    }

    fn cycle(&mut self, random: &mut Random, out: &mut Record) {
        let op = self.op(random);
        let delay = if op == UNCONFIDENT {
            0
        } else {
            self.delay(random)
        };
        let outcome = match op {
            UNCONFIDENT => CycleOutcome::Unconfident,
            _ => CycleOutcome::Candidate {
                delay: delay as usize,
                interior: op == INTERIOR,
            },
        };
        let verdict = self.tracker.on_cycle(self.alignment as usize, outcome);
        self.write(op, delay, Some(verdict), out);
        if let TrackVerdict::Move(to) = verdict {
            if !random.once_in(4) {
                self.alignment = to as u64;
            }
        }
    }

    fn op(&self, random: &mut Random) -> u8 {
        let often = match self.mood {
            Mood::Silent => UNCONFIDENT,
            Mood::Pinned => EDGE,
            _ => INTERIOR,
        };
        if random.once_in(10) {
            random.one_of(&[UNCONFIDENT, INTERIOR, EDGE])
        } else {
            often
        }
    }

    /// A candidate: a distance of one of the bands, exactly or beside it, from one of the delays that it is compared with.
    fn delay(&self, random: &mut Random) -> u64 {
        let fields = self.tracker.fields();
        let [late, early, agree, apart, lead] = self.tracker.bands();
        let pending = fields.pending.map_or(self.alignment, |delay| delay as u64);
        let previous = fields.previous.map_or(self.alignment, |delay| delay as u64);
        let from = match self.mood {
            Mood::Steady => self.alignment,
            Mood::Moving => pending,
            Mood::Jumping => previous,
            _ => random.one_of(&[self.alignment, pending, previous, lead, 0, LIMIT - 1]),
        };
        let anywhere = random_distance(random);
        let distance = match self.mood {
            Mood::Steady => random.one_of(&[0, 1, late, late + 1, early, early + 1]),
            Mood::Moving => random.one_of(&[0, agree, agree, agree + 1, late + 1, early + 1]),
            Mood::Jumping => random.one_of(&[apart, apart + 1, apart * 2]),
            _ => random.one_of(&[late, early, agree, apart, lead, anywhere]),
        };
        let distance = match random.below(6) {
            0 => distance + 1,
            1 => distance.saturating_sub(1),
            _ => distance,
        };
        let delay = if random.once_in(2) {
            from.saturating_sub(distance)
        } else {
            from + distance
        };
        delay.min(LIMIT - 1)
    }

    fn write(&mut self, op: u8, delay: u64, verdict: Option<TrackVerdict>, out: &mut Record) {
        self.largest = self.largest.max(self.tracker.jump_cycles());
        let fields = self.tracker.fields();
        let (verdict, trigger, target) = numbers(verdict);
        let flags = fields.pending.is_some() as u8
            | (fields.previous.is_some() as u8) << 1
            | (fields.suspect as u8) << 2
            | (self.tracker.quiescent() as u8) << 3;
        let of_cycle = |value| if verdict == 0 { 0 } else { value };
        out.u8(op).u8(verdict).u8(trigger).u8(flags);
        out.u32(self.rate)
            .u64(of_cycle(self.alignment))
            .u64(delay)
            .u64(target);
        out.u64(fields.pending.unwrap_or(0) as u64);
        out.u64(fields.previous.unwrap_or(0) as u64);
        out.u32(fields.edge_cycles).u32(fields.jump_cycles);
        out.u32(fields.unconfident_cycles).u32(self.largest);
    }
}

/// The numbers of a verdict and of its trigger, and the target of a move.
fn numbers(verdict: Option<TrackVerdict>) -> (u8, u8, u64) {
    match verdict {
        None => (0, 0, 0),
        Some(TrackVerdict::Hold) => (1, 0, 0),
        Some(TrackVerdict::Move(to)) => (2, 0, to as u64),
        Some(TrackVerdict::Reacquire(trigger)) => (3, trigger_number(trigger), 0),
    }
}

fn trigger_number(trigger: ReacquireTrigger) -> u8 {
    match trigger {
        ReacquireTrigger::TrackingEdge => 1,
        ReacquireTrigger::ConfidenceLost => 2,
        ReacquireTrigger::EstimatorJumping => 3,
        ReacquireTrigger::Discontinuity => 4,
    }
}

/// From next to nothing up to the largest that is allowed.
fn alignment(random: &mut Random) -> u64 {
    match random.below(8) {
        0 => 0,
        1 => random.below(100),
        2 => LIMIT - 1 - random.below(3000),
        3 => random.below(LIMIT),
        _ => random.below(200_000),
    }
}

fn random_distance(random: &mut Random) -> u64 {
    let bits = random.below(62);
    random.below(1 << bits)
}

/// A state that no walk reaches soon: counts at, before and behind each limit and at their largest value.
fn made_up(random: &mut Random) -> Fields {
    fn count(random: &mut Random) -> u32 {
        random.one_of(&[
            0,
            1,
            2,
            3,
            4,
            6,
            7,
            8,
            1000,
            u32::MAX - 1,
            u32::MAX,
            u32::MAX,
        ])
    }
    fn delay(random: &mut Random) -> Option<usize> {
        (!random.once_in(3)).then(|| alignment(random) as usize)
    }
    Fields {
        pending: delay(random),
        previous: delay(random),
        edge_cycles: count(random),
        jump_cycles: count(random),
        unconfident_cycles: count(random),
        suspect: random.once_in(2),
    }
}
