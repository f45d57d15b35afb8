//! A course of calls beside the original: first the cases that have a name, then calls in random order with random damage.

use crate::changes::{inflict, Change};
use crate::lent::Lent;
use crate::lists::{ListOf, Lists};
use crate::random::Random;
use crate::shape::Call;
use crate::tally::Tally;
use crate::trial::{attempt, CallOf, Subject, Tried};

/// A call after some changes to a new world, and the answer and values that are due.
pub struct Case<C: Call> {
    pub name: &'static str,
    pub changes: &'static [Change<C::List>],
    pub call: C,
    pub answer: (u32, &'static [u64]),
}

/// What a subject does on a course.
pub trait Walker: Subject + Sized {
    const WHAT: &'static str;
    /// After so many calls another setting is taken.
    const EPISODE: u64;
    /// One call in so many comes after damage.
    const DAMAGE: u64;
    const CASES: &'static [Case<CallOf<Self>>];

    /// The least setting.
    fn new() -> (Self, Self::World);

    /// A world of another setting.
    fn begin(&mut self, random: &mut Random) -> Self::World;

    /// The next call, now and then after a journey to a legal state that calls alone would take long to reach.
    fn choose(&mut self, random: &mut Random, w: &mut Self::World) -> CallOf<Self>;

    /// The lists were changed otherwise than by a call.
    fn changed(&mut self) {}

    /// What a call leaves to be done.
    fn after(&mut self, _: &mut Random, _: &mut Self::World, _: &CallOf<Self>, _: &Tried) {}
}

pub fn run<S: Walker>(seed: u64, count: u64) -> bool {
    let mut tally = Tally::new(S::WHAT, seed);
    let mut random = Random::new(seed);
    for case in S::CASES {
        try_case::<S>(&mut random, &mut tally, case);
    }
    let (subject, world) = S::new();
    let mut course = Course {
        subject,
        world,
        random,
        tally,
    };
    for step in 0..count {
        if step % S::EPISODE == 0 {
            course.look_around();
            course.world = course.subject.begin(&mut course.random);
        }
        course.step();
    }
    course.look_around();
    course.tally.print()
}

fn try_case<S: Walker>(random: &mut Random, tally: &mut Tally, case: &Case<CallOf<S>>) {
    let (mut subject, mut world) = S::new();
    lend_values(random, &mut world, &case.call);
    for change in case.changes {
        change.make(&mut world);
    }
    subject.changed();
    let mut tried = attempt(&mut subject, &mut world, &case.call);
    let (number, values) = case.answer;
    if tried.wrong.is_none() && (tried.got != number || !world.values().all().starts_with(values)) {
        tried.wrong = Some(format!("answered {}", tried.got));
    }
    let told = |what: String| format!("'{}', {number} {values:x?} is due: {what}", case.name);
    tried.wrong = tried.wrong.map(told);
    tally.case(case.call.shape().name, &tried);
}

/// Any words, as many as the call is to be lent.
pub fn lend_values<W: Lists>(random: &mut Random, w: &mut W, call: &W::Call) {
    let (len, values) = (call.shape().values, w.values());
    if len > 0 && values.all().len() != len {
        *values = Lent::new(len, 0);
    }
    values.all_mut().fill_with(|| random.word());
}

struct Course<S: Walker> {
    subject: S,
    world: S::World,
    random: Random,
    tally: Tally,
}

impl<S: Walker> Course<S> {
    fn step(&mut self) {
        let (random, world) = (&mut self.random, &mut self.world);
        let call = self.subject.choose(random, world);
        lend_values(random, world, &call);
        let mut undo = Vec::new();
        if random.once_in(S::DAMAGE) {
            undo = inflict(random, world, &call);
            self.subject.changed();
        }
        let tried = attempt(&mut self.subject, world, &call);
        let damaged = !undo.is_empty();
        self.tally.count(call.shape().name, &tried, damaged);
        self.undo(undo, tried.due.is_err());
        let (random, world) = (&mut self.random, &mut self.world);
        self.subject.after(random, world, &call, &tried);
        if tried.wrong.is_some() {
            *world = self.subject.begin(random);
        }
    }

    /// A refused damage is undone, and a wrong length. One that the call took stays in the state, and mostly goes from a list.
    fn undo(&mut self, undo: Vec<Change<ListOf<S::World>>>, refused: bool) {
        let keeps = !refused && self.random.once_in(4);
        for change in undo {
            let stays = match change {
                Change::Length { .. } => false,
                Change::Element { list, .. } => keeps || !refused && list == S::World::STATE,
            };
            if !stays {
                change.make(&mut self.world);
                self.subject.changed();
            }
        }
    }

    /// The guards of what the last calls were not lent, too.
    fn look_around(&mut self) {
        let mut all = S::World::ALL.iter();
        if let Some(list) = all.find(|list| !self.world.list(**list).intact()) {
            let what = format!("a guard of {list:?} was written by some call");
            self.tally.differs("any", &what);
        }
    }
}
