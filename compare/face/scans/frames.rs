//! Counted frames, bit for bit: every sort of level, echoes, histories long along, spans up to the largest.

use crate::coarse::CoarseScan;
use crate::lists::Lists;
use crate::random::Random;
use crate::scans::calls::{counted, observe, scored};
use crate::scans::profile::RATES;
use crate::scans::shape::OBSERVED;
use crate::scans::world::World;
use crate::scans::{beside, teleport};

const CEILINGS: [u32; 12] = [1, 2, 7, 8, 9, 20, 31, 64, 120, 250, 300, 500];
/// Naming an answer asks the original several times, so only some frames are named.
const NAMED: u64 = 7;

pub fn run(seed: u64, count: u64) -> bool {
    let mut random = Random::new(seed);
    let mut totals = Totals::default();
    while totals.frames < count {
        if let Err(what) = scan(&mut random, &mut totals) {
            totals.different += 1;
            println!("frames seed {seed}, frame {} of {what}", totals.frames);
        }
    }
    let Totals {
        frames,
        scans,
        answers,
        different,
    } = totals;
    println!(
        "frames seed {seed}: {frames} frames in {scans} scans, answers 16 to 24 {answers:?}, {different} different"
    );
    different == 0
}

#[derive(Default)]
struct Totals {
    frames: u64,
    scans: u64,
    answers: [u64; 9],
    different: u64,
}

/// Some frames over one far history.
fn scan(random: &mut Random, totals: &mut Totals) -> Result<(), String> {
    totals.scans += 1;
    let mut w = begin(random);
    let mut original = beside::original(&w);
    for _ in 0..random.between(20, 80) {
        if w.finished() || random.once_in(40) {
            search_anew(&mut w);
        }
        teleport::near(random, &mut w);
        beside::bring(&w.seen(), &mut original);
        let named = totals.frames % NAMED == 0;
        let (got, wrong) = frame(&mut w, &mut original, named);
        totals.frames += 1;
        if let Some(answer) = totals.answers.get_mut((got as usize).wrapping_sub(16)) {
            *answer += 1;
        }
        if let Some(what) = wrong {
            let (rate, ceiling) = (w.word(0), w.word(1));
            return Err(format!("{rate}/{ceiling}, answer {got}: {what}"));
        }
    }
    Ok(())
}

/// Scores a frame on both sides: the answer, and what is not the original's.
fn frame(w: &mut World, original: &mut CoarseScan, named: bool) -> (u32, Option<String>) {
    for list in OBSERVED {
        w.list(list).keep();
    }
    let got = observe(w);
    let wrong = if named {
        let (number, values) = scored(&w.seen(), original);
        let told = number == got && w.values.all().starts_with(&values);
        (!told).then(|| format!("the Rust answers {number} {values:x?}"))
    } else {
        original.observe();
        let products = original.products(counted(got));
        let told = w.values.all()[2];
        (told != products).then(|| format!("{told} products, the Rust {products}"))
    };
    let seen = w.seen();
    let wrong = wrong.or_else(|| beside::differs(&seen, original, seen.before[24], &OBSERVED));
    (got, wrong)
}

fn begin(random: &mut Random) -> World {
    let rate = match random.below(3) {
        0 => random.between(8000, 192_000) as u32,
        _ => random.one_of(&RATES),
    };
    let ceiling = match random.below(200) {
        0 => random.between(500, 4000) as u32,
        _ => random.one_of(&CEILINGS),
    };
    let mut w = World::new(rate, ceiling);
    teleport::far(random, &mut w);
    w
}

/// What a rearm leaves.
fn search_anew(w: &mut World) {
    for at in (12..20).chain(22..25) {
        w.set_word(at, 0);
    }
    w.lag_sums.all_mut().fill(0.0);
}
