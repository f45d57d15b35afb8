//! Whole streams from samples: far pushes, a delayed near side sample by sample, frames as they fill, rearms.

use crate::coarse::CoarseScan;
use crate::face::scan as face;
use crate::lent::Lent;
use crate::lists::Lists;
use crate::random::Random;
use crate::scans::beside;
use crate::scans::calls::{counted, observe};
use crate::scans::shape::{List, OBSERVED};
use crate::scans::sound::Sound;
use crate::scans::world::World;

pub fn run(seed: u64, scans: u64) -> bool {
    let mut random = Random::new(seed);
    let mut totals = Totals::default();
    for _ in 0..scans {
        if let Err(what) = Stream::new(&mut random).play(&mut random, &mut totals) {
            totals.different += 1;
            println!("streams seed {seed}: {what}");
        }
    }
    println!(
        "streams seed {seed}: {scans} scans, {} pushes, {} frames, {} regions, {} different",
        totals.pushes, totals.frames, totals.regions, totals.different
    );
    totals.different == 0
}

#[derive(Default)]
struct Totals {
    pushes: u64,
    frames: u64,
    regions: u64,
    different: u64,
}

struct Stream {
    world: World,
    original: CoarseScan,
    /// The index of the last near sample that was taken.
    last: u64,
    rate: u64,
    /// What is played, and by how many samples the near side follows it.
    sound: Sound,
    delay: u64,
}

impl Stream {
    fn new(random: &mut Random) -> Stream {
        let rate = random.one_of(&[8000, 8500, 11025, 16000, 22050, 44100, 48000, 192_000]);
        let ceiling = random.one_of(&[5, 20, 40, 80, 250]);
        let world = World::new(rate, ceiling);
        Stream {
            original: beside::original(&world),
            world,
            last: 0,
            rate: rate as u64,
            sound: Sound::new(rate as u64),
            delay: random.below(ceiling as u64 * rate as u64 / 1000 + 1),
        }
    }

    /// Three seconds.
    fn play(mut self, random: &mut Random, totals: &mut Totals) -> Result<(), String> {
        let mut index = random.below(1000);
        while (self.sound.played.len() as u64) < 3 * self.rate {
            self.far(random, totals)?;
            while index < self.sound.played.len() as u64 {
                self.near(index, totals)?;
                index += 1;
                if random.once_in(20_000) {
                    // A hole, or none: some samples are left out or come again.
                    index = (index + random.below(40)).saturating_sub(20);
                }
            }
            if self.original.finished() {
                totals.regions += self.original.region().is_some() as u64;
                self.keep(&[List::State, List::LagSums]);
                self.original.rearm();
                self.last = 0;
                let answer =
                    face::rearm(self.world.state.lent_mut(), self.world.lag_sums.lent_mut());
                self.agree("rearm", answer, 16, &[List::LagSums])?;
            }
        }
        Ok(())
    }

    fn keep(&mut self, lists: &[List]) {
        for list in lists {
            self.world.list(*list).keep();
        }
    }

    fn agree(&mut self, call: &str, got: u32, due: u32, lists: &[List]) -> Result<(), String> {
        if got != due {
            return Err(format!("{call} answered {got}, not {due}"));
        }
        let wrong = beside::differs(&self.world.seen(), &self.original, self.last, lists);
        wrong.map_or(Ok(()), |what| Err(format!("{call}: {what}")))
    }

    fn far(&mut self, random: &mut Random, totals: &mut Totals) -> Result<(), String> {
        let count = random.between(0, 3000);
        let samples = self.sound.next(random, count);
        self.world.samples = Lent::of(&samples);
        self.keep(&[List::State, List::Envelope, List::Samples]);
        self.original.push_far(&samples);
        self.sound.played.extend(&samples);
        let w = &mut self.world;
        let answer = face::push_far(w.state.lent_mut(), w.envelope.lent_mut(), w.samples.lent());
        totals.pushes += 1;
        self.agree("far push", answer, 16, &[List::Envelope])
    }

    fn near(&mut self, index: u64, totals: &mut Totals) -> Result<(), String> {
        let sample = self.sound.heard(index, self.delay);
        let finished = self.original.finished();
        let full = self.original.push_numbered(&mut self.last, sample, index);
        let w = &mut self.world;
        let answer = face::push_near(w.state.lent_mut(), w.levels.lent_mut(), sample, index);
        totals.pushes += 1;
        if answer < 16 || (answer == 19) != full || (answer == 16) != finished {
            return Err(format!("near push answered {answer}, the Rust {full}"));
        }
        if self.world.word(24) != self.last {
            return Err(format!("the last index is not {}", self.last));
        }
        if !full {
            return Ok(());
        }
        self.keep(&OBSERVED);
        self.agree("near push", answer, 19, &[List::Levels])?;
        self.original.observe();
        totals.frames += 1;
        let answer = observe(&mut self.world);
        let products = self.original.products(counted(answer));
        let told = self.world.values.all()[2];
        if told != products {
            return Err(format!("observe told {told} products, the Rust {products}"));
        }
        self.agree("observe", answer, answer.max(16), &OBSERVED)
    }
}
