//! What is done to the lists before a call, and how it is undone.

use crate::choices;
use crate::lent::Kind;
use crate::lists::{ListOf, Lists};
use crate::random::Random;
use crate::shape::Call;

#[derive(Clone, Copy)]
pub enum Change<L> {
    Element { list: L, at: usize, bits: u64 },
    Length { list: L, len: usize },
}

pub const fn set<L: Copy>(list: L, at: usize, bits: u64) -> Change<L> {
    Change::Element { list, at, bits }
}

pub const fn lend<L: Copy>(list: L, len: usize) -> Change<L> {
    Change::Length { list, len }
}

impl<L: Copy> Change<L> {
    /// Makes the change, and gives the one that undoes it.
    pub fn make<C: Call<List = L>>(&self, lists: &mut impl Lists<Call = C>) -> Change<L> {
        match *self {
            Change::Element { list, at, bits } => {
                let held = lists.list(list).bits(at);
                lists.list(list).set_bits(at, bits);
                set(list, at, held)
            }
            Change::Length { list, len } => {
                let given = lists.list(list).given();
                lists.list(list).give(len);
                lend(list, given)
            }
        }
    }
}

/// Damages what the call is lent, now and then in several places, so that one refusal stands against another. Gives what undoes it.
pub fn inflict<W: Lists>(
    random: &mut Random,
    lists: &mut W,
    call: &W::Call,
) -> Vec<Change<ListOf<W>>> {
    let places = match random.once_in(4) {
        true => random.between(2, 3),
        false => 1,
    };
    let mut undo = Vec::new();
    for _ in 0..places {
        for change in damage(random, lists, call) {
            undo.push(change.make(lists));
        }
    }
    undo.reverse();
    undo
}

/// Another length of a list, an odd element in one or in each of the lists of floats, or a word of the state.
fn damage<W: Lists>(random: &mut Random, lists: &mut W, call: &W::Call) -> Vec<Change<ListOf<W>>> {
    let lent = call.shape().lent;
    let one = random.one_of(lent);
    match random.below(6) {
        0 | 1 => {
            let len = choices::wrong_length(random, lists.list(one).given());
            vec![lend(one, len)]
        }
        2 => element(random, lists, one).into_iter().collect(),
        3 => {
            let odd = |list: &ListOf<W>| match lists.list(*list).kind() {
                Kind::Words => None,
                _ => element(random, lists, *list),
            };
            lent.iter().filter_map(odd).collect()
        }
        _ => element(random, lists, W::STATE).into_iter().collect(),
    }
}

/// An odd pattern, or an odd word, somewhere in a list that is not empty.
fn element<W: Lists>(
    random: &mut Random,
    lists: &mut W,
    list: ListOf<W>,
) -> Option<Change<ListOf<W>>> {
    let buffer = lists.list(list);
    if buffer.due() == 0 {
        return None;
    }
    let at = random.below(buffer.due() as u64) as usize;
    let bits = match buffer.kind() {
        Kind::Words => choices::word(random, buffer.bits(at)),
        Kind::Singles => choices::odd32(random) as u64,
        Kind::Doubles => choices::odd64(random),
    };
    Some(set(list, at, bits))
}
