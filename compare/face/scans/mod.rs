//! All calls of the scan in random order, with random damage, beside the original.

pub mod beside;
pub mod calls;
mod cases;
pub mod choose;
pub mod frames;
pub mod original;
pub mod profile;
pub mod referee;
pub mod shape;
pub mod sound;
pub mod streams;
pub mod teleport;
pub mod world;

use crate::coarse::CoarseScan;
use crate::course::{Case, Walker};
use crate::random::Random;
use crate::rules::{Bins, Judged};
use crate::trial::{Subject, Tried};
use original::Original;
use profile::{Profile, FULL};
use shape::{Call, List};
use world::World;

/// A profile beside its original.
pub(crate) trait Kind {
    type Original: Original;
    const WHAT: &'static str;
    const PROFILE: &'static Profile;
    const CASES: &'static [Case<Call>];
}

pub(crate) struct Full;

impl Kind for Full {
    type Original = CoarseScan;
    const WHAT: &'static str = "scan";
    const PROFILE: &'static Profile = &FULL;
    const CASES: &'static [Case<Call>] = cases::CASES;
}

pub(crate) struct Scan<K: Kind> {
    original: K::Original,
    /// The rate and ceiling that the original was made for.
    setting: (u64, u64),
    /// Whether the original is no longer in the state of the words and the buffers.
    behind: bool,
    /// The index that the next near sample has if nothing is skipped.
    index: u64,
    /// The index of the last near sample that was taken, which the original does not keep.
    last: u64,
}

impl<K: Kind> Scan<K> {
    /// A new scan, and its original.
    pub fn made(rate: u32, ceiling: u32) -> (Scan<K>, World) {
        let world = World::of(K::PROFILE, rate, ceiling);
        let scan = Scan {
            original: beside::made_as(&world.seen()),
            setting: (rate as u64, ceiling as u64),
            behind: false,
            index: 0,
            last: 0,
        };
        (scan, world)
    }
}

impl<K: Kind> Subject for Scan<K> {
    type World = World;
    const DUE: fn(&World, &Call) -> Judged = referee::due;
    const FACE: fn(&mut World, &Call) -> u32 = calls::face;

    /// An original that did the calls before this one is there already.
    fn bring(&mut self, w: &World) {
        let setting = (w.word(0), w.word(1));
        if setting != self.setting {
            self.original = beside::made_as(&w.seen());
            self.setting = setting;
        } else if self.behind {
            beside::bring(&w.seen(), &mut self.original);
        }
        self.behind = false;
        self.last = w.word(24);
    }

    /// A new original has new buffers, of which the call was lent only some.
    fn original(&mut self, w: &World, call: &Call) -> (u32, Vec<u64>) {
        if let Call::New { rate, ceiling } = *call {
            self.setting = (rate as u64, ceiling as u64);
            self.behind = true;
        }
        calls::original(&w.seen(), call, &mut self.original, &mut self.last)
    }

    fn stored(&self, w: &World, call: &Call) -> Vec<u64> {
        let mut before = w.seen().before;
        if let Call::New { rate, ceiling } = *call {
            before[0] = rate as u64;
            before[1] = ceiling as u64;
            before[3] = Bins::of(before[0], before[1]).bin_rate;
        }
        beside::stored(&before, &self.original, self.last).to_vec()
    }

    fn holds(&self, w: &World, list: List) -> bool {
        beside::holds(&w.seen(), &self.original, list)
    }
}

impl<K: Kind> Walker for Scan<K> {
    const WHAT: &'static str = K::WHAT;
    const EPISODE: u64 = 3000;
    const DAMAGE: u64 = 4;
    const CASES: &'static [Case<Call>] = K::CASES;

    fn new() -> (Scan<K>, World) {
        let (rate, ceiling) = K::PROFILE.least;
        Scan::made(rate, ceiling)
    }

    fn begin(&mut self, random: &mut Random) -> World {
        self.behind = true;
        choose::world(random, K::PROFILE)
    }

    fn choose(&mut self, random: &mut Random, w: &mut World) -> Call {
        self.behind |= choose::travel(random, w);
        choose::call(random, w, &mut self.index)
    }

    fn changed(&mut self) {
        self.behind = true;
    }

    /// A scan made anew is mostly given a far history; one whose setting is no longer that of the buffers is left.
    fn after(&mut self, random: &mut Random, w: &mut World, call: &Call, tried: &Tried) {
        let anew = tried.due.is_ok() && matches!(call, Call::New { .. } | Call::Reset);
        if !w.fits() {
            *w = self.begin(random);
        } else if anew && !random.once_in(4) {
            teleport::far(random, w);
            self.behind = true;
        }
    }
}
