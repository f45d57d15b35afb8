//! Holes in the near numbering: every place of a frame at which it can break, and every step.

use super::script::{Script, Stored};
use crate::random::Random;
use crate::signal::Signal;

/// Rates of 8, 11, 48 and 192 samples a block.
const RATES: [u32; 4] = [8000, 11_025, 48_000, 192_000];

pub fn all(random: &mut Random, stored: &mut Stored) {
    for rate in RATES {
        let mut script = Script::new(rate, 20, stored);
        let geometry = script.geometry();
        let block = geometry.decimation as u64;
        let frame = block * geometry.frame as u64;
        let signal = Signal::speech(random, 5 * block as u16);
        script.far(signal, 0, 3 * block as usize + 1);
        // After a frame's first sample, at a block's last and first one, in a block, and at the frame's last sample.
        for after in [1, block - 1, block, 2 * block + 3, frame - 1] {
            for step in steps(block) {
                broken(&mut script, signal, after, step);
            }
        }
    }
}

/// By how much the next index is not the last one plus one: equal, off by one on both sides, whole blocks on and back, from the middle of a block to the grid, far off.
fn steps(block: u64) -> [i64; 12] {
    let block = block as i64;
    [
        -1,
        1,
        -2,
        2,
        block,
        -block,
        3 * block - 1,
        1 - block,
        -3,
        2 * block + 1,
        1 << 40,
        0,
    ]
}

/// A frame begins, breaks off, and goes on behind the hole for a block and a bit; a sample back where it broke off is a hole again.
fn broken(script: &mut Script, signal: Signal, after: u64, step: i64) {
    let block = script.geometry().decimation as u64;
    let first = 100 * block;
    script.near(signal, 0, first, after as usize);
    let next = (first + after).checked_add_signed(step).unwrap();
    let (_, full) = script.near(signal, after, next, 1);
    if full {
        script.score();
        return;
    }
    script.near(signal, after + 1, next + 1, block as usize + 2);
    script.near(signal, 7, first + after, 2);
    script.discard_near();
    script.near(signal, 9, first + after, 2);
    script.discard_near();
}
