//! Calls of the fine stage: the gate with its energies and missing ends, and the peak rule on arrays that the transform
//! gave and on chosen ones.

mod script;

use super::Files;
use crate::random::Random;
use crate::signal::{Signal, SIGNED, SILENCE};
use script::{Script, Stored};

/// Below it a side is silent.
const ENERGY_FLOOR: f64 = 1e-8;
/// Origins are below it.
const LIMIT: u64 = 1 << 62;

const SPANS: [u16; 14] = [
    1, 2, 9, 15, 16, 39, 64, 127, 128, 129, 500, 1000, 4096, 32768,
];

pub fn files(mut random: Random) -> Files {
    let mut stored = Stored::default();
    for span in SPANS {
        gates(&mut random, span, &mut stored);
        energies_at_the_floor(&mut random, span, &mut stored);
        peaks(&mut random, span, &mut stored);
    }
    for _ in 0..60 {
        let span = random.between(1, 300) as u16;
        gates(&mut random, span, &mut stored);
        peaks(&mut random, span, &mut stored);
    }
    for tenth in 1..40 {
        ratios_at_ten(&mut random, tenth, &mut stored);
    }
    largest_counts(&mut random, &mut stored);
    let Stored {
        records,
        gates,
        locks,
        ties,
        ..
    } = stored;
    eprintln!("fine: {records} calls, gates nothing, skipped, silent, first, later: {gates:?}, {locks} locks, {ties} ties");
    vec![("calls", stored.calls.0), ("arrays", stored.arrays.0)]
}

/// Samples about 1, each for itself.
fn lively(random: &mut Random) -> Signal {
    Signal {
        seed: random.word() as u32,
        mask: SIGNED,
        shape: random.word() as u32,
        hold: 1,
        base: 124,
        spread: 3,
        period: 0,
    }
}

/// A few gates in a row, with every way to miss an end; near samples that echo the window, so that later frames lock.
fn gates(random: &mut Random, span: u16, stored: &mut Stored) {
    let mut script = Script::new(span, stored);
    let quarter = script.fine.frame_len() / 4;
    let far = lively(random);
    let turns = if span > 300 { 4 } else { random.between(5, 9) };
    for turn in 0..turns {
        if random.once_in(6) {
            let origin = random.one_of(&[0, 1, 15, 16, 17, 50_000, LIMIT - 1]);
            script.relocate(origin);
        }
        if !script.stores_arrays() {
            script.restart();
        }
        let place = turn * 100_000;
        let delay = random.below(span as u64 + 1);
        script.near(
            far,
            place + delay,
            random.below(script.fine.frame_len() as u64) as usize,
        );
        match random.below(12) {
            0 => script.restart(),
            1 => script.reset(),
            2 => script.set_counts(
                random.one_of(&[0, 1, u32::MAX - 100]),
                7,
                random.one_of(&[0, u64::MAX - 100]),
            ),
            _ => {}
        }
        let noise = random.once_in(8);
        let near = if noise { lively(random) } else { far };
        let so_far = script.fine.near_frame().len() as u64;
        script.near_rest(near, place + delay + so_far);
        script.set_window(if random.once_in(8) { SILENCE } else { far }, place);
        let (head, tail) = random.one_of(&[
            (0, 0),
            (0, 0),
            (0, 0),
            (0, 1),
            (0, quarter),
            (0, quarter + 1),
            (1, 0),
            (7, quarter + 1),
        ]);
        script.gate(head, tail);
        if script.stores_arrays() && random.once_in(3) {
            script.relocate(random.below(100_000));
            let (head, tail) =
                random.one_of(&[(0, 0), (0, 0), (0, quarter), (0, quarter + 1), (1, 0)]);
            script.set_window(
                if random.once_in(6) { SILENCE } else { far },
                place + random.below(5),
            );
            script.rescan(head, tail);
        }
    }
}

/// Counts that reach their largest value; the skipped ones stay there.
fn largest_counts(random: &mut Random, stored: &mut Stored) {
    let mut script = Script::new(20, stored);
    let signal = lively(random);
    script.set_window(signal, 0);
    script.set_counts(u32::MAX - 1, u32::MAX - 1, u64::MAX - 1);
    for (head, tail) in [(0, 0), (1, 0), (1, 0), (0, 1000)] {
        script.near_rest(signal, 5);
        script.gate(head, tail);
    }
}

/// Sides whose energy is the floor, and one step of the last place beside it.
fn energies_at_the_floor(random: &mut Random, span: u16, stored: &mut Stored) {
    let mut script = Script::new(span, stored);
    for energy in [
        ENERGY_FLOOR,
        ENERGY_FLOOR.next_down(),
        ENERGY_FLOOR.next_up(),
    ] {
        let samples = with_energy(energy);
        script.restart();
        script.set_window(lively(random), 0);
        for &sample in &samples {
            script.near_sample(sample);
        }
        script.near_rest(SILENCE, 0);
        script.gate(0, 0);
        script.set_window(SILENCE, 0);
        for (at, &sample) in samples.iter().enumerate() {
            script.set_window_sample(at, sample);
        }
        script.restart();
        script.near_rest(lively(random), 0);
        script.gate(0, 0);
        if script.stores_arrays() {
            script.rescan(0, 0);
        }
    }
}

/// Samples whose squares, added in order, come to `energy` exactly.
fn with_energy(energy: f64) -> Vec<f32> {
    let mut sum = 0.0_f64;
    let mut samples = Vec::new();
    while sum < energy {
        let root = ((energy - sum).sqrt()) as f32;
        let sample = if sum + root as f64 * root as f64 > energy {
            root.next_down()
        } else {
            root
        };
        samples.push(sample);
        sum += sample as f64 * sample as f64;
    }
    assert_eq!(sum, energy);
    samples
}

/// The peak rule on arrays of every sort.
fn peaks(random: &mut Random, span: u16, stored: &mut Stored) {
    let mut script = Script::new(span, stored);
    let last = span as usize;
    let any = |random: &mut Random| random.below(last as u64 + 1) as usize;
    script.set_array(SILENCE, 0);
    script.peak();
    let background = [
        SILENCE,
        lively(random),
        // Small beside 1; subnormal; powers of two with many ties.
        Signal {
            base: 90,
            spread: 15,
            ..lively(random)
        },
        Signal {
            base: 0,
            spread: 0,
            ..lively(random)
        },
        Signal {
            mask: 0x8000_0000,
            spread: 1,
            ..lively(random)
        },
        Signal {
            mask: 0x8000_0000,
            spread: 0,
            ..SILENCE
        },
    ];
    for signal in background {
        let origin = random.one_of(&[0, 1, 100, LIMIT - 1, random_origin(last)]);
        script.relocate(origin);
        script.set_array(signal, random.below(1000));
        script.peak();
        // One spike, its equal of the other sign before or behind it, a larger one.
        for entry in [
            1.0_f32,
            -1.0,
            1.0_f32.next_up(),
            f32::MIN_POSITIVE,
            f32::MAX,
        ] {
            script.set_array_entry(any(random), entry);
            script.peak();
        }
        script.set_array_entry(0, f32::MAX);
        script.set_array_entry(last, -f32::MAX);
        script.peak();
    }
    if random.once_in(4) {
        script.set_counts(5, 6, u64::MAX - 1);
        script.peak();
    }
}

/// An origin whose shallowest delays are within the margin.
fn random_origin(last: usize) -> u64 {
    (last as u64 * 7) % 31
}

/// As many ones as a tenth of the entries: ratio 10; then one entry a little more, or less.
fn ratios_at_ten(random: &mut Random, ones: usize, stored: &mut Stored) {
    let entries = 10 * ones;
    let mut script = Script::new(entries as u16 - 1, stored);
    script.relocate(random.below(1000));
    script.set_array(SILENCE, 0);
    let first = random.below(10) as usize;
    for one in 0..ones {
        script.set_array_entry(
            (first + 10 * one) % entries,
            if one % 2 == 0 { 1.0 } else { -1.0 },
        );
    }
    script.peak();
    for small in [1e-30, 2.0_f32.powi(-53), 2.0_f32.powi(-50)] {
        script.set_array_entry((first + 1) % entries, small);
        script.peak();
    }
    script.set_array_entry((first + 1) % entries, 0.0);
    script.set_array_entry(first, 1.0_f32.next_up());
    script.peak();
    script.set_array_entry(first, 1.0_f32.next_down());
    script.peak();
}
