//! Small recordings that between them show every line, every refusal and every way to be bad.

mod bad;
mod chance;
mod holes;
pub mod long;
mod refused;
mod scene;
mod siblings;
mod words;

use super::maker::*;
use super::Recording;
use crate::random::Random;
use chance::{at_random, cycles_alone};
use scene::Scene;

const NAN: u32 = 0x7fc0_0001;
const INFINITY: u32 = 0xff80_0000;

/// Recordings with their names, in the order in which they are made.
#[derive(Default)]
pub struct Shelf(pub Vec<(String, Recording)>);

impl Shelf {
    fn add(&mut self, name: impl Into<String>, recording: Recording) {
        self.0.push((name.into(), recording));
    }
}

pub fn all(random: &mut Random) -> Shelf {
    let mut shelf = Shelf::default();
    shelf.add("the document's own", document());
    bad::headers(&mut shelf);
    bad::events(random, &mut shelf);
    bad::totals(random, &mut shelf);
    words::every(random, &mut shelf);
    refused::every(random, &mut shelf);
    refused::finished(random, &mut shelf);
    for turn in 0..110 {
        shelf.add(format!("cycles {turn}"), cycles_alone(random, turn));
    }
    for turn in 0..70 {
        shelf.add(format!("small at random {turn}"), at_random(random, 160));
    }
    for turn in 0..16 {
        shelf.add(format!("at random {turn}"), at_random(random, 3000));
    }
    holes::every(random, &mut shelf);
    siblings::every(random, &mut shelf);
    shelf
}

/// One recording at random: cycles alone, few samples, enough for frames, or near runs that go on with holes between them.
pub fn any(random: &mut Random) -> Recording {
    match random.below(8) {
        0 => {
            let turn = random.below(16) as usize;
            cycles_alone(random, turn)
        }
        1 => at_random(random, 160),
        2..=4 => at_random(random, 3000),
        _ => holes::interrupted(random, 2600),
    }
}

/// The log that the scope paper gives in full.
fn document() -> Recording {
    let mut maker = Maker::new(48_000, 500);
    for delay in [4700, 4500, 4480] {
        maker.event(INTERIOR, 4800, delay);
    }
    maker.plain(UNCONFIDENT);
    maker.recording()
}

/// The demo: an echo that is found, a new search with a seam in it, an alignment that follows, and a lock that is lost.
pub fn demo(random: &mut Random) -> Recording {
    let mut scene = Scene::new(random, 8000, 250);
    let delay = 8 * 120 + 3;
    scene.lay(300);
    for turn in 0..4 {
        scene.lay(256);
        scene.echo(254 + 250 * turn, delay);
    }
    scene.maker.plain(REARM);
    scene.echo(900, delay);
    scene.echo(1000, delay);
    scene.maker.plain(DISCARD);
    for turn in 0..4 {
        scene.echo(800 + 100 * turn, delay);
    }
    for (alignment, delay) in [
        (960, 962),
        (960, 700),
        (960, 705),
        (641, 650),
        (641, 1100),
        (641, 1095),
    ] {
        scene.maker.event(INTERIOR, alignment, delay);
    }
    scene.maker.event(EDGE, 1095, 1400);
    scene.maker.plain(DISCONTINUITY);
    for _ in 0..4 {
        scene.maker.plain(UNCONFIDENT);
    }
    scene.maker.recording()
}
