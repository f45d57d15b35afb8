//! All calls of the pair in random order, with random damage, beside two unchanged scans of the original that hear the same far side and each its own near side.

mod calls;
mod cases;
mod choose;
mod referee;
mod shape;
pub mod streams;
pub mod world;

use crate::changes::Change;
use crate::coarse::CoarseScan;
use crate::course::{Case, Walker};
use crate::lent::Buffer;
use crate::random::Random;
use crate::rules::{Bins, Judged};
use crate::scans::original::Original;
use crate::scans::shape::{Call as ScanCall, List as ScanList};
use crate::scans::{beside, calls as scan_calls, teleport};
use crate::trial::{Subject, Tried};
use shape::{Call, List};
use world::World;

pub(crate) struct Pair {
    originals: [CoarseScan; 2],
    /// The rate and ceiling that the originals were made for.
    setting: (u64, u64),
    /// Whether an original is no longer in the state of the words and the buffers.
    behind: [bool; 2],
    /// Whether a channel kept the rules before the call. Where one does not, its original stands for the common part alone.
    whole: [bool; 2],
    /// The index of the last near sample that was taken.
    last: [u64; 2],
    /// The channel whose original has the window, the prefixes and the scores as they are lent.
    scored: usize,
    /// The index that the next near sample has if nothing is skipped.
    index: [u64; 2],
    /// The channel that was damaged aside, which is not the one that the call was chosen for, and what undoes it.
    aside: (usize, Vec<Change<List>>),
}

impl Pair {
    fn over(w: &World) -> Pair {
        Pair {
            originals: [0, 1].map(|channel| beside::made_as(&w.seen(channel))),
            setting: (w.state.all()[0], w.state.all()[1]),
            behind: [false; 2],
            whole: [true; 2],
            last: [0; 2],
            scored: 0,
            index: [0; 2],
            aside: (0, Vec::new()),
        }
    }

    /// Scratch is the pair's: the original of the channel that is to be scored is lent what the other one left there.
    fn lend_scratch(&mut self, w: &World, call: &Call) {
        if let Call::Channel(number @ 0..=1, ScanCall::Observe) = *call {
            if self.scored != number as usize {
                let sums = [w.prefix.all(), w.squares.all(), w.scores.all()];
                self.originals[number as usize].lend_scratch(w.window.all(), sums);
            }
        }
    }
}

impl Subject for Pair {
    type World = World;
    const DUE: fn(&World, &Call) -> Judged = referee::due;
    const FACE: fn(&mut World, &Call) -> u32 = calls::face;

    fn bring(&mut self, w: &World) {
        let setting = (w.state.all()[0], w.state.all()[1]);
        for channel in 0..2 {
            let whole = w.keeps_rules(channel);
            let seen = match whole {
                true => w.seen(channel),
                false => w.common(),
            };
            let original = &mut self.originals[channel];
            if setting != self.setting {
                *original = beside::made_as(&seen);
            } else if self.behind[channel] || whole != self.whole[channel] {
                beside::bring(&seen, original);
            }
            self.behind[channel] = !whole;
            self.whole[channel] = whole;
            self.last[channel] = seen.word(24);
        }
        self.setting = setting;
    }

    fn original(&mut self, w: &World, call: &Call) -> (u32, Vec<u64>) {
        if let Call::Channel(number, call) = call {
            let channel = *number as usize;
            if *call == ScanCall::Observe {
                self.scored = channel;
            }
            let (original, last) = (&mut self.originals[channel], &mut self.last[channel]);
            return scan_calls::original(&w.seen(channel), call, original, last);
        }
        if let ScanCall::New { rate, ceiling } = *call.scan_call() {
            self.setting = (rate as u64, ceiling as u64);
            self.behind = [true; 2];
            self.whole = [true; 2];
        }
        let [first, second] = [0, 1].map(|channel| {
            let (original, last) = (&mut self.originals[channel], &mut self.last[channel]);
            scan_calls::original(&w.seen(channel), call.scan_call(), original, last)
        });
        assert_eq!(first, second, "{call:?} is common to both");
        first
    }

    fn stored(&self, w: &World, call: &Call) -> Vec<u64> {
        let mut before = w.state.before().to_vec();
        if let ScanCall::New { rate, ceiling } = *call.scan_call() {
            before[0] = rate as u64;
            before[1] = ceiling as u64;
            before[3] = Bins::of(before[0], before[1]).bin_rate;
        }
        let mut words = before.clone();
        let mut common = Vec::new();
        for channel in 0..2 {
            let own = world::scan_words(&before, channel);
            let scan = beside::stored(&own, &self.originals[channel], self.last[channel]);
            common.push(scan[..12].to_vec());
            world::put_common(&mut words, &scan);
            if self.whole[channel] {
                world::put_own(&mut words, channel, &scan);
            }
        }
        assert_eq!(common[0], common[1], "both hear one far side");
        words
    }

    fn holds(&self, w: &World, list: List) -> bool {
        let of = |channel: usize, list: ScanList| {
            beside::holds(&w.seen(channel), &self.originals[channel], list)
        };
        match list {
            List::State | List::Values => true,
            List::Samples => w.samples.unchanged(),
            List::Envelope => of(0, ScanList::Envelope) && of(1, ScanList::Envelope),
            List::FirstLevels => of(0, ScanList::Levels),
            List::SecondLevels => of(1, ScanList::Levels),
            List::FirstLagSums => of(0, ScanList::LagSums),
            List::SecondLagSums => of(1, ScanList::LagSums),
            List::Window => of(self.scored, ScanList::Window),
            List::Prefix => of(self.scored, ScanList::Prefix),
            List::Squares => of(self.scored, ScanList::Squares),
            List::Scores => of(self.scored, ScanList::Scores),
        }
    }
}

impl Walker for Pair {
    const WHAT: &'static str = "pair";
    const EPISODE: u64 = 3000;
    const DAMAGE: u64 = 4;
    const CASES: &'static [Case<Call>] = cases::CASES;

    fn new() -> (Pair, World) {
        let world = World::new(8000, 1);
        (Pair::over(&world), world)
    }

    fn begin(&mut self, random: &mut Random) -> World {
        self.behind = [true; 2];
        self.aside.1.clear();
        choose::world(random)
    }

    fn choose(&mut self, random: &mut Random, w: &mut World) -> Call {
        let channel = random.below(2) as usize;
        if choose::travel(random, w, channel) {
            self.behind = [true; 2];
        }
        let call = choose::call(random, w, channel, &mut self.index[channel]);
        self.lend_scratch(w, &call);
        if random.once_in(6) {
            self.aside = (1 - channel, choose::harm(random, w, 1 - channel));
            self.behind[1 - channel] = true;
        }
        call
    }

    fn changed(&mut self) {
        self.behind = [true; 2];
    }

    /// What was done to the channel that the call did not name is undone, unless the call began both anew; a channel that was left broken by damage that the call did not look at begins anew.
    fn after(&mut self, random: &mut Random, w: &mut World, call: &Call, tried: &Tried) {
        let anew =
            tried.due.is_ok() && matches!(call.scan_call(), ScanCall::New { .. } | ScanCall::Reset);
        let (harmed, undo) = &mut self.aside;
        for change in undo.drain(..).filter(|_| !anew) {
            change.make(w);
            self.behind[*harmed] = true;
        }
        if !w.fits() {
            *w = self.begin(random);
            return;
        }
        for channel in 0..2 {
            if !w.keeps_rules(channel) {
                choose::heal(w, channel);
                self.behind[channel] = true;
            }
        }
        if anew && !random.once_in(4) {
            w.as_scan(0, |scan| teleport::far(random, scan));
            self.behind = [true; 2];
        }
    }
}
