//! The next call of a pair.

use super::shape::{Call, List};
use super::world::{place, World};
use crate::changes::{set, Change};
use crate::choices;
use crate::lists::Lists;
use crate::random::Random;
use crate::scans::choose as scan;
use crate::scans::profile::FULL;
use crate::scans::shape::Call as ScanCall;
use crate::scans::teleport;

/// A new pair of some rate and ceiling, mostly with a far history.
pub fn world(random: &mut Random) -> World {
    let (rate, ceiling) = (FULL.setting)(random);
    let mut w = World::new(rate, ceiling);
    if !random.once_in(4) {
        w.as_scan(0, |scan| teleport::far(random, scan));
    }
    w
}

/// Now and then a legal state that calls alone would take long to reach. Says whether it is one.
pub fn travel(random: &mut Random, w: &mut World, channel: usize) -> bool {
    w.as_scan(channel, |w| scan::travel(random, w))
}

/// A call on both channels or on this one, now and then with a number that names none.
pub fn call(random: &mut Random, w: &mut World, channel: usize, index: &mut u64) -> Call {
    let call = w.as_scan(channel, |w| scan::call(random, w, index));
    match call {
        ScanCall::New { .. }
        | ScanCall::Reset
        | ScanCall::PushFar
        | ScanCall::BinSamples
        | ScanCall::CeilingSamples => Call::Common(call),
        _ => {
            let number = match random.once_in(30) {
                true => no_channel(random),
                false => channel as u32,
            };
            Call::Channel(number, call)
        }
    }
}

fn no_channel(random: &mut Random) -> u32 {
    let number = match random.below(3) {
        0 => random.word() as u32,
        _ => random.one_of(&[
            2,
            3,
            255,
            256,
            257,
            1 << 16,
            1 << 31,
            u32::MAX - 1,
            u32::MAX,
        ]),
    };
    number.max(2)
}

/// Puts odd words and patterns into a channel's words and lists, so that it mostly breaks the rules. Gives what undoes it.
pub fn harm(random: &mut Random, w: &mut World, channel: usize) -> Vec<Change<List>> {
    let (first, count) = match random.once_in(3) {
        true => (0, 13),
        false => (random.below(13) as usize, 1),
    };
    let words = (first..first + count).map(|at| (List::State, place(channel) + at));
    let lists = match channel {
        0 => [List::FirstLevels, List::FirstLagSums],
        _ => [List::SecondLevels, List::SecondLagSums],
    };
    let elements = lists.map(|list| (list, random.below(w.list(list).due() as u64) as usize));
    let mut undo: Vec<_> = words
        .chain(elements)
        .map(|(list, at)| {
            let bits = match list {
                List::State => choices::word(random, w.state.all()[at]),
                List::FirstLevels | List::SecondLevels => choices::odd32(random) as u64,
                _ => choices::odd64(random),
            };
            set(list, at, bits).make(w)
        })
        .collect();
    undo.reverse();
    undo
}

/// A new channel in the place of one that breaks the rules.
pub fn heal(w: &mut World, channel: usize) {
    w.state.all_mut()[place(channel)..][..13].fill(0);
    match channel {
        0 => w.first_lag_sums.all_mut().fill(0.0),
        _ => w.second_lag_sums.all_mut().fill(0.0),
    }
}
