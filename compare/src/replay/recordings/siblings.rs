//! Siblings of the scope paper's form (request g), right and damaged.

use super::bad::with_samples;
use super::refused::found;
use super::*;
use crate::replay::forms::{as_floats, as_shorts};

/// Both siblings of a recording.
fn both(shelf: &mut Shelf, name: &str, plain: &Recording) {
    shelf.add(format!("{name}, kind 1"), as_floats(plain));
    shelf.add(format!("{name}, kind 2"), as_shorts(plain));
}

pub fn every(random: &mut Random, shelf: &mut Shelf) {
    both(shelf, "the document's own", &document());
    both(shelf, "nothing at all", &Maker::new(192_000, 4000).recording());
    both(shelf, "an echo", &found(random).recording());
    for turn in 0..5 {
        both(shelf, &format!("sibling at random {turn}"), &at_random(random, 3000));
    }
    every_number(shelf);
    kinds(random, shelf);
    lengths(random, shelf);
}

/// All 65,536 numbers on both sides.
fn every_number(shelf: &mut Shelf) {
    let patterns: Vec<u32> = (0..=u16::MAX)
        .map(|bits| (bits as i16 as f32 / 32_768.0).to_bits())
        .collect();
    let mut maker = Maker::new(8000, 20);
    maker.far_bits(&patterns);
    maker.near_bits(0, &patterns);
    both(shelf, "every number", &maker.recording());
}

/// Headers of 24 to 28 bytes, and sample kinds that are none.
fn kinds(random: &mut Random, shelf: &mut Shelf) {
    let shorts = as_shorts(&with_samples(random).recording());
    for len in 24..=28 {
        let mut cut = shorts.clone();
        cut.events.truncate(len);
        shelf.add(format!("sibling's header of {len} bytes"), cut);
    }
    for kind in [0, 1, 3, 0x0200, 0x0200_0000, 0x8000_0002, u32::MAX] {
        let mut other = shorts.clone();
        other.events[24..28].copy_from_slice(&u32::to_le_bytes(kind));
        shelf.add(format!("sample kind {kind}"), other);
    }
    for offset in [25, 27, 29, 32] {
        let mut other = shorts.clone();
        other.events[12] = offset;
        shelf.add(format!("sibling with offset {offset}"), other);
    }
}

/// Odd bytes, inputs that are short or long, and totals that are not used up.
fn lengths(random: &mut Random, shelf: &mut Shelf) {
    let plain = with_samples(random).recording();
    for sibling in [as_floats(&plain), as_shorts(&plain)] {
        let kind = sibling.events[24];
        for cut in [1, 2, 3, 4] {
            let mut short = sibling.clone();
            short.far.truncate(short.far.len() - cut);
            shelf.add(format!("kind {kind}, far side short of {cut} bytes"), short);
            let mut short = sibling.clone();
            short.near.truncate(short.near.len() - cut);
            shelf.add(format!("kind {kind}, near side short of {cut} bytes"), short);
        }
        let mut beyond = sibling.clone();
        beyond.events.extend([255; 5]);
        beyond.far.push(255);
        beyond.near.extend([255; 7]);
        shelf.add(format!("kind {kind}, bytes beyond what is announced"), beyond);
        for at in [16, 20] {
            let mut more = sibling.clone();
            more.events[at] += 1;
            more.far.extend([0; 4]);
            more.near.extend([0; 4]);
            shelf.add(format!("kind {kind}, a total of one more"), more);
            let mut less = sibling.clone();
            less.events[at] -= 1;
            shelf.add(format!("kind {kind}, a total of one less"), less);
        }
        let mut short = sibling.clone();
        short.events.truncate(short.events.len() - 1);
        shelf.add(format!("kind {kind}, events short of a byte"), short);
    }
}
