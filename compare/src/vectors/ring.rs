//! Ring calls: pushes around and beyond the capacity, and queries on, beside and far from the edges of what is kept.

use super::Files;
use crate::random::Random;
use crate::record::Record;
use crate::ring::ReferenceRing;
use crate::signal::word;

const QUERIES: usize = 24_000;
const CALLS_A_RING: usize = 160;
const CAPACITIES: [u64; 14] = [1, 1, 2, 3, 4, 7, 16, 31, 100, 256, 1000, 1024, 4095, 4096];
/// Samples accepted are at most this many.
const LIMIT: u64 = 1 << 62;

/// The bits that make a pattern a NaN or an infinity.
const EXPONENT: u32 = 0x7f80_0000;

const MAKE: u8 = 1;
const PUSH: u8 = 2;
const GET: u8 = 3;
const CLEAR: u8 = 4;
const SET: u8 = 5;

pub fn files(mut random: Random) -> Files {
    let mut out = Record::default();
    let mut rings = 0;
    let mut queries = 0;
    while queries < QUERIES {
        let capacity = random.one_of(&CAPACITIES);
        queries += run(capacity, &mut random, &mut out);
        rings += 1;
    }
    eprintln!("ring: {rings} rings, {queries} queries");
    vec![("calls", out.0)]
}

/// One ring from its making on. Answers how many queries it wrote.
fn run(capacity: u64, random: &mut Random, out: &mut Record) -> usize {
    let mut ring = ReferenceRing::new(capacity as usize);
    write(&ring, MAKE, false, capacity as u32, 0, out);
    let mut queries = 0;
    for _ in 0..CALLS_A_RING {
        match random.below(100) {
            0 => {
                ring.clear();
                write(&ring, CLEAR, false, 0, 0, out);
            }
            1 => {
                let next = count(random);
                ring.set_next_abs(next);
                write(&ring, SET, false, 0, next, out);
            }
            2..=24 => push(&mut ring, random, out),
            _ => {
                let at = index(&ring, random);
                let kept = ring.get(at).map(f32::to_bits);
                write(&ring, GET, kept.is_some(), kept.unwrap_or(0), at, out);
                queries += 1;
            }
        }
    }
    queries
}

fn push(ring: &mut ReferenceRing, random: &mut Random, out: &mut Record) {
    let capacity = ring.capacity() as u64;
    let count = match random.below(6) {
        0 => random.below(4),
        1 => capacity + random.below(3) - 1,
        2 => capacity * 2 + random.below(5),
        3 => random.below(3 * capacity + 1),
        _ => random.below(capacity + 1),
    };
    let count = count.min(LIMIT - ring.next_abs()) as usize;
    let seed = random.word() as u32;
    let mask = random.one_of(&[0, EXPONENT]);
    let samples: Vec<f32> = (0..count as u64)
        .map(|n| f32::from_bits(word(seed, n) | mask))
        .collect();
    ring.push(&samples);
    write(
        ring,
        PUSH,
        false,
        count as u32,
        (mask as u64) << 32 | seed as u64,
        out,
    );
}

/// A count of samples accepted, up to the largest.
fn count(random: &mut Random) -> u64 {
    match random.below(3) {
        0 => LIMIT - random.below(10_000),
        1 => random.below(LIMIT),
        _ => random.below(10_000),
    }
}

/// An index on, beside or far from the edges of what is kept.
fn index(ring: &ReferenceRing, random: &mut Random) -> u64 {
    let kept = ring.next_abs() - ring.dropped();
    let anywhere = random.word();
    match random.below(10) {
        0 => ring.dropped(),
        1 => ring.dropped().saturating_sub(1),
        2 => ring.next_abs(),
        3 => ring.next_abs().saturating_sub(1),
        4 => ring.next_abs() + random.below(2 * ring.capacity() as u64),
        5 => random.one_of(&[0, LIMIT, u64::MAX, anywhere]),
        _ => ring.dropped() + random.below(kept + 1),
    }
}

fn write(ring: &ReferenceRing, op: u8, kept: bool, short: u32, long: u64, out: &mut Record) {
    out.u8(op).u8(kept as u8).u16(0).u32(short).u64(long);
    out.u64(ring.next_abs()).u64(ring.dropped());
}
