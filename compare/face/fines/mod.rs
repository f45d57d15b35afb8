//! All calls of the fine stage in random order, with random damage, beside the original.

mod beside;
mod calls;
mod choose;
mod referee;
mod shape;
pub mod world;

use crate::changes::{lend, set};
use crate::course::{Case, Walker};
use crate::random::Random;
use crate::rules::Judged;
use crate::trial::{Subject, Tried};
use beside::Original;
use shape::{Call, List};
use world::World;

pub struct Fine {
    original: Original,
}

impl Subject for Fine {
    type World = World;
    const DUE: fn(&World, &Call) -> Judged = referee::due;
    const FACE: fn(&mut World, &Call) -> u32 = calls::face;

    fn bring(&mut self, w: &World) {
        beside::bring(w, &mut self.original);
    }

    fn original(&mut self, w: &World, call: &Call) -> (u32, Vec<u64>) {
        calls::original(w, call, &mut self.original)
    }

    fn stored(&self, w: &World, _: &Call) -> Vec<u64> {
        beside::stored(w, &self.original).to_vec()
    }

    fn holds(&self, w: &World, list: List) -> bool {
        beside::holds(w, &self.original.fine, list)
    }
}

/// A signalling NaN.
const SIGNALLING: u64 = 0x7ff0_0000_0000_0001;

impl Walker for Fine {
    const WHAT: &'static str = "fine";
    const EPISODE: u64 = 2000;
    const DAMAGE: u64 = 4;
    const CASES: &'static [Case<Call>] = &[
        Case {
            name: "a making for span 0 is lent 12 words",
            changes: &[lend(List::State, 12)],
            call: Call::New(0),
            answer: (1, &[]),
        },
        Case {
            name: "frames of a state of span 0, 2 values lent",
            changes: &[set(List::State, 0, 0), lend(List::Values, 2)],
            call: Call::Frames,
            answer: (1, &[]),
        },
        Case {
            name: "the last scan's ratio is a signalling NaN",
            changes: &[set(List::State, 9, SIGNALLING)],
            call: Call::LastScanRatio,
            answer: (16, &[SIGNALLING]),
        },
        Case {
            name: "the peak rule on zeros, span 1: first 0, last 1, the other values left",
            changes: &[set(List::Values, 0, 70), set(List::Values, 2, 72)],
            call: Call::Peak,
            answer: (16, &[70, 0, 72, 1]),
        },
        Case {
            name: "the last scan's peak stood first at 7 and last at 3",
            changes: &[
                set(List::State, 10, 1),
                set(List::State, 11, 7),
                set(List::State, 13, 3),
            ],
            call: Call::LastScanPeakAt,
            answer: (17, &[7, 3]),
        },
    ];

    fn new() -> (Fine, World) {
        let original = Original::new(1);
        (Fine { original }, World::new(1))
    }

    fn begin(&mut self, random: &mut Random) -> World {
        let span = choose::span(random);
        self.original = Original::new(span);
        World::with_more(span, random.one_of(&[0, 0, 1, 40]))
    }

    fn choose(&mut self, random: &mut Random, w: &mut World) -> Call {
        choose::travel(random, w);
        choose::call(random, w)
    }

    /// A making for another span leaves lists that are not of its lengths.
    fn after(&mut self, random: &mut Random, w: &mut World, _: &Call, _: &Tried) {
        if !w.fits() {
            *w = self.begin(random);
        }
    }
}
