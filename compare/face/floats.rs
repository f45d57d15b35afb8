//! Square root, narrowing, finite tests and the absolute value against the processor's own; the scope paper fixes what a NaN gives.

use crate::face;
use crate::random::Random;

const NAN_64: u64 = 0x7ff8_0000_0000_0000;
const NAN_32: u32 = 0x7fc0_0000;

pub fn root(bits: u64) -> u64 {
    let x = f64::from_bits(bits);
    if x.is_nan() || x < 0.0 {
        return NAN_64;
    }
    x.sqrt().to_bits()
}

pub fn narrowed(bits: u64) -> u32 {
    let x = f64::from_bits(bits);
    if x.is_nan() {
        return NAN_32;
    }
    (x as f32).to_bits()
}

/// Any pattern; squares and products, whose roots are near a tie or exact; values halfway between two f32, and beside it;
/// subnormals of both widths; ends of the range.
fn pattern(random: &mut Random) -> u64 {
    match random.below(10) {
        0..=2 => random.word(),
        3 => {
            let (a, b) = (random.word() as u32, random.word() as u32);
            (f32::from_bits(a) as f64 * f32::from_bits(b) as f64).to_bits()
        }
        4 => {
            let x = (random.word() >> random.between(11, 40)) as f64;
            (x * x)
                .to_bits()
                .wrapping_add(random.below(3))
                .wrapping_sub(1)
        }
        5 | 6 => {
            // An f32 of any exponent, and half of its last place more, or a hair beside that.
            let exponent = 1023 - 151 + random.below(282);
            let fraction = (random.word() >> 12) & !0x1fff_ffff | 0x1000_0000;
            let sign = random.below(2) << 63;
            let tie = sign | exponent << 52 | fraction;
            tie.wrapping_add(random.below(5)).wrapping_sub(2)
        }
        7 => {
            // What narrows to a subnormal: ties of every width.
            let exponent = 1023 - 150 + random.below(26);
            let kept = random.below(53);
            let fraction = (random.word() >> 12) >> kept << kept | ((1u64 << kept) >> 1);
            random.below(2) << 63 | exponent << 52 | (fraction & 0x000f_ffff_ffff_ffff)
        }
        8 => (random.word() >> 12 >> random.below(53)) | random.below(2) << 63,
        // At and around the largest number that narrows to a finite one.
        _ => {
            let largest = 0x47ef_ffff_f000_0000 - random.below(2);
            crate::choices::word(random, largest)
        }
    }
}

/// Tries `count` patterns: `differs` says how an answer differs.
fn tried(what: &str, seed: u64, count: u64, differs: &dyn Fn(u64) -> Option<String>) -> bool {
    let mut random = Random::new(seed);
    let mut different = 0;
    for _ in 0..count {
        let bits = pattern(&mut random);
        if let Some(told) = differs(bits) {
            different += 1;
            if different <= 5 {
                println!("{what} seed {seed}: of {bits:#018x} {told}");
            }
        }
    }
    println!("{what} seed {seed}: {count} patterns, {different} different");
    different == 0
}

/// Square roots, each by itself and in lists.
pub fn roots(seed: u64, count: u64) -> bool {
    let single = tried("square root", seed, count, &|bits| {
        let (got, due) = (face::square_root(bits), root(bits));
        (got != due).then(|| format!("{got:#x}, not {due:#x}"))
    });
    lists(seed, count) && single
}

pub fn run(seed: u64, count: u64) -> bool {
    let one =
        |what: &str, differs: &dyn Fn(u64) -> Option<String>| tried(what, seed, count, differs);
    let roots = roots(seed, count);
    let narrowings = one("narrowing", &|bits| {
        let (got, due) = (face::narrow(bits), narrowed(bits));
        (got != due).then(|| format!("{got:#x}, not {due:#x}"))
    });
    let finite = one("finite, f64", &|bits| {
        let (got, due) = (face::is_finite(bits), f64::from_bits(bits).is_finite());
        (got != due as u32).then(|| format!("{got}, not {due}"))
    });
    // Both halves of each pattern: the upper one has the exponents that were aimed at, the lower one any.
    let finite32 = one("finite, f32", &|bits| {
        [(bits >> 32) as u32, bits as u32, narrowed(bits)]
            .into_iter()
            .find_map(|half| {
                let (got, due) = (face::is_finite32(half), f32::from_bits(half).is_finite());
                (got != due as u32).then(|| format!("{half:#010x}: {got}, not {due}"))
            })
    });
    let magnitudes = one("absolute value", &|bits| {
        let (got, due) = (face::magnitude(bits), f64::from_bits(bits).abs().to_bits());
        (got != due).then(|| format!("{got:#x}, not {due:#x}"))
    });
    roots && narrowings && finite && finite32 && magnitudes
}

/// Square roots in lists of every length from none to 500.
fn lists(seed: u64, count: u64) -> bool {
    let mut random = Random::new(seed);
    let (mut tried, mut different) = (0, 0);
    while tried < count {
        let given: Vec<u64> = (0..random.below(501).min(count - tried))
            .map(|_| pattern(&mut random))
            .collect();
        let mut list = given.clone();
        face::square_roots(&mut list);
        for (bits, got) in given.iter().zip(&list) {
            if *got != root(*bits) {
                different += 1;
                if different <= 5 {
                    println!(
                        "square roots seed {seed}: of {bits:#018x} {got:#x}, not {:#x}",
                        root(*bits)
                    );
                }
            }
        }
        tried += given.len() as u64;
    }
    println!("square roots in lists seed {seed}: {tried} patterns, {different} different");
    different == 0
}
