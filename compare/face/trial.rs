//! One call, tried: the referee says which refusal is due, the face answers, and if none is due the original does the same call.

use crate::lists::{ListOf, Lists};
use crate::rules::Judged;
use crate::shape::Call;

pub type CallOf<S> = <<S as Subject>::World as Lists>::Call;

/// The original of one part of the core, and what is held beside it.
pub trait Subject {
    type World: Lists;
    /// The referee.
    const DUE: fn(&Self::World, &CallOf<Self>) -> Judged;
    /// Calls the face.
    const FACE: fn(&mut Self::World, &CallOf<Self>) -> u32;

    /// Brings the original to the state of the words and lists, which have just been kept.
    fn bring(&mut self, w: &Self::World);

    /// Has the original do the call: the number of its answer, and the values that go with it.
    fn original(&mut self, w: &Self::World, call: &CallOf<Self>) -> (u32, Vec<u64>);

    /// The words of the original's state, over those that were kept.
    fn stored(&self, w: &Self::World, call: &CallOf<Self>) -> Vec<u64>;

    /// Whether a list holds what the original's does, and what was kept where the original has none.
    fn holds(&self, w: &Self::World, list: ListOf<Self::World>) -> bool;
}

pub struct Tried {
    pub due: Judged,
    pub got: u32,
    /// A NaN that signals or carries a payload was lent in a list of floats.
    pub payload: bool,
    pub wrong: Option<String>,
}

pub fn attempt<S: Subject>(subject: &mut S, w: &mut S::World, call: &CallOf<S>) -> Tried {
    let due = S::DUE(w, call);
    let mut payload = false;
    for list in call.shape().lent {
        w.list(*list).keep();
        payload |= w.list(*list).has_payload();
    }
    let begun = match due {
        Ok(()) if !call.is_making() => begins_otherwise(subject, w, call),
        _ => None,
    };
    let got = S::FACE(w, call);
    let wrong = begun
        .or_else(|| guard_written(w, call))
        .or_else(|| match due {
            Err(number) => refused_otherwise(w, call, number, got),
            Ok(()) => answered_otherwise(subject, w, call, got),
        });
    Tried {
        due,
        got,
        payload,
        wrong,
    }
}

/// What the original begins with that is not what the call is lent.
fn begins_otherwise<S: Subject>(subject: &mut S, w: &S::World, call: &CallOf<S>) -> Option<String> {
    subject.bring(w);
    differs(subject, w, call).map(|what| format!("before the call {what}"))
}

fn guard_written<W: Lists>(w: &mut W, call: &W::Call) -> Option<String> {
    let mut lent = call.shape().lent.iter();
    lent.find(|list| !w.list(**list).intact())
        .map(|list| format!("a guard of {list:?} was written"))
}

/// A refusal has the number that is due, and has written nothing.
fn refused_otherwise<W: Lists>(w: &mut W, call: &W::Call, due: u32, got: u32) -> Option<String> {
    if got != due {
        return Some(format!("answered {got}, {due} is due"));
    }
    let mut lent = call.shape().lent.iter();
    lent.find(|list| !w.list(**list).unchanged())
        .map(|list| format!("refused with {got}, and {list:?} was written"))
}

/// The original's number and values, and what it leaves in words and lists.
fn answered_otherwise<S: Subject>(
    subject: &mut S,
    w: &mut S::World,
    call: &CallOf<S>,
    got: u32,
) -> Option<String> {
    let (number, values) = subject.original(w, call);
    if number != got {
        return Some(format!("answered {got}, the Rust {number}"));
    }
    value_differs(w, call, &values).or_else(|| differs(subject, w, call))
}

/// The values that the answer has, to the bit; the others are as they were.
fn value_differs<W: Lists>(w: &mut W, call: &W::Call, due: &[u64]) -> Option<String> {
    let values = w.values();
    let (now, before) = (values.all(), values.before());
    (0..call.shape().values).find_map(|at| {
        let due = due.get(at).copied().unwrap_or(before[at]);
        (now[at] != due).then(|| format!("value {at} is {:#x}, {due:#x} is due", now[at]))
    })
}

/// The first word of the state or list lent that is not the original's, to the bit.
fn differs<S: Subject>(subject: &S, w: &S::World, call: &CallOf<S>) -> Option<String> {
    let lent = call.shape().lent;
    word_differs(w.state().all(), &subject.stored(w, call))
        .or_else(|| list_differs(lent, |list| subject.holds(w, list)))
}

pub fn word_differs(state: &[u64], rust: &[u64]) -> Option<String> {
    let at = (0..rust.len()).find(|&at| rust[at] != state[at])?;
    let (word, due) = (state[at], rust[at]);
    Some(format!("word {at} is {word:#x}, the Rust's {due:#x}"))
}

pub fn list_differs<L: Copy + std::fmt::Debug>(
    lists: &[L],
    holds: impl Fn(L) -> bool,
) -> Option<String> {
    let list = lists.iter().find(|list| !holds(**list))?;
    Some(format!("{list:?} is not the Rust's"))
}
