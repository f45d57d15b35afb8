//! All calls of the tracker in random order, with random damage, beside the original.

mod choose;
mod referee;
mod shape;
mod world;

use crate::changes::{lend, set};
use crate::course::{Case, Walker};
use crate::delay::ReacquireTrigger;
use crate::face::tracker as face;
use crate::random::Random;
use crate::rules::{Judged, LIMIT};
use crate::track::{CycleOutcome, Fields, TrackVerdict, Tracker};
use crate::trial::{Subject, Tried};
use shape::{Call, Cycle, List};
use world::World;

pub struct Follower {
    original: Tracker,
    /// The original keeps no largest run: the running maximum of its `jump_cycles()`.
    largest: u32,
    alignment: u64,
}

fn face(w: &mut World, call: &Call) -> u32 {
    let (state, values) = (w.state.lent_mut(), w.values.lent_mut());
    match *call {
        Call::New(rate) => face::new(state, rate),
        Call::Cycle(Cycle {
            alignment,
            kind,
            delay,
        }) => face::on_cycle(state, alignment, kind, delay, values),
        Call::Discontinuity => face::on_discontinuity(state),
        Call::JumpCycles => face::jump_cycles(state, values),
        Call::LongestRun => face::longest_run(state, values),
        Call::Suspect => face::suspect(state),
        Call::Quiescent => face::quiescent(state),
    }
}

impl Subject for Follower {
    type World = World;
    const DUE: fn(&World, &Call) -> Judged = referee::due;
    const FACE: fn(&mut World, &Call) -> u32 = face;

    fn bring(&mut self, w: &World) {
        let state = w.state.before();
        let delay = |flag: usize| (state[flag] == 1).then(|| state[flag + 1] as usize);
        self.original = Tracker::new(state[0] as u32);
        self.original.set_fields(Fields {
            pending: delay(6),
            previous: delay(8),
            edge_cycles: state[10] as u32,
            jump_cycles: state[11] as u32,
            unconfident_cycles: state[12] as u32,
            suspect: state[13] == 1,
        });
        self.largest = state[14] as u32;
    }

    fn original(&mut self, _: &World, call: &Call) -> (u32, Vec<u64>) {
        let tracker = &mut self.original;
        let flag = |yes: bool| (16 + yes as u32, vec![]);
        match call {
            Call::New(rate) => {
                *tracker = Tracker::new(*rate);
                self.largest = 0;
            }
            Call::Discontinuity => tracker.on_discontinuity(),
            Call::Cycle(cycle) => {
                let answer = verdict(tracker, cycle);
                self.largest = self.largest.max(tracker.jump_cycles());
                return answer;
            }
            Call::JumpCycles => return (16, vec![tracker.jump_cycles() as u64]),
            Call::LongestRun => return (16, vec![self.largest as u64]),
            Call::Suspect => return flag(tracker.fields().suspect),
            Call::Quiescent => return flag(tracker.quiescent()),
        }
        (16, vec![])
    }

    /// A delay that is not there leaves what stood in its word.
    fn stored(&self, w: &World, call: &Call) -> Vec<u64> {
        let fields = self.original.fields();
        let mut words = w.state.before().to_vec();
        if let Call::New(rate) = *call {
            words[0] = rate as u64;
        }
        words[1..6].copy_from_slice(&self.original.bands());
        for (at, delay) in [(6, fields.pending), (8, fields.previous)] {
            words[at] = delay.is_some() as u64;
            words[at + 1] = delay.map_or(words[at + 1], |delay| delay as u64);
        }
        words[10] = fields.edge_cycles as u64;
        words[11] = fields.jump_cycles as u64;
        words[12] = fields.unconfident_cycles as u64;
        words[13] = fields.suspect as u64;
        words[14] = self.largest as u64;
        words
    }

    /// It has no list beside the words.
    fn holds(&self, _: &World, _: List) -> bool {
        true
    }
}

fn verdict(tracker: &mut Tracker, cycle: &Cycle) -> (u32, Vec<u64>) {
    let outcome = match cycle.kind {
        0 => CycleOutcome::Unconfident,
        kind => CycleOutcome::Candidate {
            delay: cycle.delay as usize,
            interior: kind == 1,
        },
    };
    let number = match tracker.on_cycle(cycle.alignment as usize, outcome) {
        TrackVerdict::Hold => 16,
        TrackVerdict::Move(to) => return (17, vec![to as u64]),
        TrackVerdict::Reacquire(ReacquireTrigger::TrackingEdge) => 18,
        TrackVerdict::Reacquire(ReacquireTrigger::ConfidenceLost) => 19,
        TrackVerdict::Reacquire(ReacquireTrigger::EstimatorJumping) => 20,
        TrackVerdict::Reacquire(ReacquireTrigger::Discontinuity) => 21,
    };
    (number, vec![])
}

impl Walker for Follower {
    const WHAT: &'static str = "tracker";
    const EPISODE: u64 = 500;
    const DAMAGE: u64 = 6;
    const CASES: &'static [Case<Call>] = &[
        Case {
            name: "a making for rate 7,999 is lent 14 words",
            changes: &[lend(List::State, 14)],
            call: Call::New(7_999),
            answer: (1, &[]),
        },
        Case {
            name: "a report on a state of rate 0 is lent 2 values",
            changes: &[set(List::State, 0, 0), lend(List::Values, 2)],
            call: Call::JumpCycles,
            answer: (1, &[]),
        },
        Case {
            name: "a largest run below the current one, and an alignment of 2^62",
            changes: &[set(List::State, 11, 1)],
            call: Call::Cycle(Cycle {
                alignment: LIMIT,
                kind: 0,
                delay: 0,
            }),
            answer: (9, &[]),
        },
        Case {
            name: "a largest run below the current one, and a cycle of kind 3",
            changes: &[set(List::State, 11, 1)],
            call: Call::Cycle(Cycle {
                alignment: 0,
                kind: 3,
                delay: 0,
            }),
            answer: (3, &[]),
        },
        Case {
            name: "whether a tracker is quiescent whose largest run is below the current one",
            changes: &[set(List::State, 11, 7), set(List::State, 14, 6)],
            call: Call::Quiescent,
            answer: (9, &[]),
        },
        Case {
            name: "the largest run of a tracker whose current one is as large",
            changes: &[set(List::State, 11, 7), set(List::State, 14, 7)],
            call: Call::LongestRun,
            answer: (16, &[7]),
        },
        Case {
            name: "a largest run of 2^32, above the current one",
            changes: &[set(List::State, 14, 1 << 32)],
            call: Call::LongestRun,
            answer: (3, &[]),
        },
    ];

    fn new() -> (Follower, World) {
        let follower = Follower {
            original: Tracker::new(8_000),
            largest: 0,
            alignment: 0,
        };
        (follower, World::new(8_000))
    }

    fn begin(&mut self, random: &mut Random) -> World {
        self.alignment = random.one_of(&[0, 50, 1000, 5000, 100_000, 1 << 40, LIMIT - 1]);
        World::new(match random.below(3) {
            0 => random.one_of(&[8_000, 48_000, 192_000]),
            _ => random.between(8_000, 192_000),
        })
    }

    fn choose(&mut self, random: &mut Random, w: &mut World) -> Call {
        choose::call(random, w.state.all(), self.alignment)
    }

    /// Every second move is followed.
    fn after(&mut self, random: &mut Random, w: &mut World, call: &Call, tried: &Tried) {
        if matches!(call, Call::Cycle(_)) && tried.got == 17 && random.once_in(2) {
            self.alignment = w.values.all()[0];
        }
    }
}
