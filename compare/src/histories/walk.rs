//! Random histories: happenings in moods, so that every run comes about that a verdict waits for, with candidates on and beside each band's edge.

use super::sentences::Happening;
use crate::random::Random;
use crate::track::TrackVerdict;

/// Delays and alignments are below it.
const LIMIT: u64 = 1 << 62;

#[derive(Clone, Copy)]
enum Mood {
    Silent,
    Pinned,
    Steady,
    Moving,
    Roaming,
}

const MOODS: [Mood; 5] = [
    Mood::Silent,
    Mood::Pinned,
    Mood::Steady,
    Mood::Moving,
    Mood::Roaming,
];

pub struct Walk {
    pub rate: u32,
    /// The delay of every edge candidate: no sentence asks for it.
    pub edge: u64,
    alignment: u64,
    /// The delay of the interior candidate before.
    before: u64,
    mood: Mood,
}

impl Walk {
    /// Most often at a low rate, whose bands are small.
    pub fn new(random: &mut Random) -> Walk {
        let rate = match random.below(8) {
            0 => random.one_of(&[44_100, 48_000, 192_000]),
            1 => random.between(8000, 192_000) as u32,
            _ => random.between(8000, 8400) as u32,
        };
        let alignment = match random.below(12) {
            0 => 0,
            1 => LIMIT - 1 - random.below(2000),
            _ => random.below(6000),
        };
        Walk {
            rate,
            edge: random.below(LIMIT),
            alignment,
            before: alignment,
            mood: random.one_of(&MOODS),
        }
    }

    /// The next happening, and the alignment at that moment.
    pub fn next(&mut self, random: &mut Random) -> (Happening, u64) {
        if random.once_in(9) {
            self.mood = random.one_of(&MOODS);
        }
        if random.once_in(40) {
            self.alignment = random.below(6000);
        }
        let what = match (random.below(24), self.mood) {
            (0, _) => Happening::Discontinuity,
            (1, _) => Happening::Unconfident,
            (2, _) => Happening::Edge,
            (3, _) => self.interior(random),
            (_, Mood::Silent) => Happening::Unconfident,
            (_, Mood::Pinned) => random.one_of(&[Happening::Edge, Happening::Unconfident]),
            _ => self.interior(random),
        };
        (what, self.alignment)
    }

    /// A host adopts most moves, and nothing else.
    pub fn heed(&mut self, random: &mut Random, verdict: TrackVerdict) {
        if let TrackVerdict::Move(to) = verdict {
            if !random.once_in(4) {
                self.alignment = to as u64;
            }
        }
    }

    /// A band's distance, exactly or one beside it, from the alignment or from the candidate before.
    fn interior(&mut self, random: &mut Random) -> Happening {
        let samples = |ms: u64| ms * self.rate as u64 / 1000;
        let (from, ms) = match self.mood {
            Mood::Steady => (self.alignment, random.one_of(&[0, 4, 48])),
            Mood::Moving => (self.before, random.one_of(&[0, 4, 24])),
            Mood::Roaming => (self.before, random.one_of(&[24, 48, 100, 200])),
            _ => (
                random.one_of(&[self.alignment, self.before]),
                random.one_of(&[0, 4, 24, 48, 100]),
            ),
        };
        let distance = match random.below(5) {
            0 => samples(ms) + 1,
            1 => samples(ms).saturating_sub(1),
            _ => samples(ms),
        };
        let delay = match random.below(2) {
            0 => from.saturating_sub(distance),
            _ => (from + distance).min(LIMIT - 1),
        };
        self.before = delay;
        Happening::Interior {
            alignment: self.alignment,
            delay,
        }
    }
}
