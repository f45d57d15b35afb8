//! Near recordings with holes in their numbering (request d).

use super::*;

/// Where the numbering breaks: so many samples after a frame's first. A frame has 2,048 at this rate, a block 8.
const PLACES: [(&str, u64); 4] = [
    ("after a frame's first sample", 1),
    ("in a block", 13),
    ("at a block's first sample", 16),
    ("at a frame's last sample", 2047),
];

/// By how much the next index is not the last one plus one.
const STEPS: [i64; 9] = [-1, 1, -2, 2, 8, -8, -16, 24, 3000];

/// Every boundary: the same index twice, off by one on both sides, on and off the grid, far ahead; and a NaN at each.
pub fn every(random: &mut Random, shelf: &mut Shelf) {
    for (name, after) in PLACES {
        let steps = if after < 2047 {
            &STEPS[..]
        } else {
            &STEPS[..4]
        };
        let recording = broken(random, after, steps, false);
        shelf.add(format!("a hole {name}"), recording);
        let recording = broken(random, after, steps, true);
        shelf.add(format!("a hole {name}, no number there"), recording);
    }
    shelf.add("two near events without a hole between them", whole(random));
    shelf.add("what a hole leaves of four frames", banked(random));
    for turn in 0..14 {
        shelf.add(
            format!("interrupted at random {turn}"),
            interrupted(random, 2600),
        );
    }
}

/// A frame begins and breaks off; behind the hole another one may fill. With no number at the hole it is refused where it would be read, and the frame goes on.
fn broken(random: &mut Random, after: u64, steps: &[i64], no_number: bool) -> Recording {
    let mut scene = Scene::new(random, 8000, 20);
    scene.lay(700);
    let first = scene.span * scene.block;
    for &step in steps {
        scene.maker.near_signal(first, scene.far, 0, after);
        let next = (first + after).checked_add_signed(step).unwrap();
        let mut rest = patterns(scene.far, next - 8 * 5, 2060);
        if no_number {
            rest[0] = NAN;
        }
        scene.maker.near_bits(next, &rest);
        if no_number {
            scene
                .maker
                .near_signal(first + after, scene.far, 0, 2048 - after);
        }
        scene.maker.plain(DISCARD);
    }
    scene.maker.recording()
}

fn whole(random: &mut Random) -> Recording {
    let mut scene = Scene::new(random, 8000, 20);
    scene.lay(400);
    let first = scene.span * scene.block;
    for part in 0..4 {
        let place = first + 512 * part;
        scene
            .maker
            .near_signal(place, scene.far, place - 8 * 7, 512);
    }
    scene.maker.recording()
}

/// Three frames are banked; a hole in the fourth leaves them, and the next whole frame decides.
fn banked(random: &mut Random) -> Recording {
    let mut scene = Scene::new(random, 8000, 20);
    scene.lay_window();
    scene.echoes(3, 8 * 7);
    scene.maker.near_signal(8 * 20, scene.far, 0, 1000);
    scene.echoes(1, 8 * 7);
    scene.maker.recording()
}

/// Near runs that mostly go on where the last one ended, and now and then skip, repeat or step back.
pub fn interrupted(random: &mut Random, most: u64) -> Recording {
    let rate = random.one_of(&[8000, 8000, 8001, 8499, 8500, 9499, 11_025]);
    let ceiling = random.one_of(&[1, 2, 8, 9, 20, 40]);
    let mut scene = Scene::new(random, rate, ceiling);
    scene.lay(scene.span + scene.frame + 500);
    let delay = random.below(scene.span * scene.block + 1);
    let start = scene.span * scene.block;
    let mut next = start + random.below(3);
    for _ in 0..random.between(6, 20) {
        let block = scene.block;
        next = match random.below(40) {
            0 => next + 1,
            1 => next.saturating_sub(1),
            2 => next.saturating_sub(random.between(2, 3 * block)),
            3 => next + random.between(2, 3 * block),
            4 => (next / block + random.below(3)).saturating_sub(1) * block,
            5 => start + random.below(20) * block,
            6 => {
                scene.maker.plain(random.one_of(&[REARM, DISCARD]));
                next
            }
            _ => next,
        };
        let count = random.one_of(&[1, block - 1, block, block + 1, 300, most, most, most]);
        let count = random.between(1, count.max(1));
        let mut samples = patterns(scene.far, next - delay.min(next), count);
        if random.once_in(9) {
            let anywhere = random.below(count);
            let at = random.one_of(&[0, 0, count - 1, anywhere]) as usize;
            samples[at] = random.one_of(&[NAN, INFINITY]);
        }
        scene.maker.near_bits(next, &samples);
        next += count;
    }
    scene.maker.recording()
}
