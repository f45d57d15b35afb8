//! The original in the state of a world: brought there, and compared with it bit for bit.

use super::original::Original;
use super::shape::List;
use super::world::{Seen, World, WORDS};
use crate::coarse::CoarseScan;
use crate::lent::Buffer;
use crate::trial::{list_differs, word_differs};

/// The original in the state that the words and the buffers say.
pub fn original(w: &World) -> CoarseScan {
    made_as(&w.seen())
}

pub fn made_as<O: Original>(w: &Seen) -> O {
    let mut scan = O::made(w.word(0) as u32, w.word(1) as u32);
    bring(w, &mut scan);
    scan
}

/// Brings an original of the same rate and ceiling to the same state. Where the words say another setting than the buffers have, those that do not fit are not lent.
pub fn bring(w: &Seen, scan: &mut impl Original) {
    let near = w.levels.all();
    let near = &near[..near.len().min(w.word(12) as usize)];
    scan.bring(
        &w.words,
        [w.envelope.all(), near, w.window.all()],
        [
            w.prefix.all(),
            w.squares.all(),
            w.scores.all(),
            w.lag_sums.all(),
        ],
    );
}

/// The words that the original's state has, over those that were there. `last` is the last index, which it does not keep.
pub fn stored(before: &[u64; WORDS], scan: &impl Original, last: u64) -> [u64; WORDS] {
    let mut words = *before;
    scan.write(&mut words);
    words[24] = last;
    words
}

/// Whether a list holds what the original's does.
pub fn holds(w: &Seen, scan: &impl Original, list: List) -> bool {
    let [envelope, near, window] = scan.levels();
    let [prefix, squares, scores, lag_sums] = scan.sums();
    match list {
        List::State | List::Values => true,
        List::Envelope => w.envelope.holds(envelope),
        List::Levels => w.levels.begins(near),
        List::Window => w.window.holds(window),
        List::Prefix => w.prefix.holds(prefix),
        List::Squares => w.squares.holds(squares),
        List::Scores => w.scores.holds(scores),
        List::LagSums => w.lag_sums.holds(lag_sums),
        List::Samples => w.samples.unchanged(),
    }
}

/// The first word of the state or of these lists that is not the original's.
pub fn differs(w: &Seen, scan: &impl Original, last: u64, lists: &[List]) -> Option<String> {
    word_differs(&w.words, &stored(&w.before, scan, last))
        .or_else(|| list_differs(lists, |list| holds(w, scan, list)))
}
