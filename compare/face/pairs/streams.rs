//! Whole streams of two channels from samples: one sound is played, each channel hears it with a delay of its own, is rearmed and discarded by itself and meets its own holes and refusals. Each original is fed its
//! channel's calls alone and is never brought anywhere: what one channel is fed must not show in the other.

use super::shape::Call;
use super::world::World;
use super::Pair;
use crate::course::lend_values;
use crate::lent::Lent;
use crate::random::Random;
use crate::scans::shape::Call as ScanCall;
use crate::scans::sound::Sound;
use crate::trial::attempt;

pub fn run(seed: u64, pairs: u64) -> bool {
    let mut random = Random::new(seed);
    let mut totals = Totals::default();
    for pair in 0..pairs {
        if let Err(what) = Stream::new(&mut random).play(&mut random, &mut totals) {
            totals.different += 1;
            println!("pair-streams seed {seed}, pair {pair}: {what}");
        }
    }
    let Totals {
        calls,
        refused,
        frames,
        regions,
        resets,
        different,
    } = totals;
    println!(
        "pair-streams seed {seed}: {pairs} pairs, {calls} calls, {refused} refused, frames by channel {frames:?}, regions {regions:?}, {resets} resets, {different} different"
    );
    different == 0
}

#[derive(Default)]
struct Totals {
    calls: u64,
    refused: u64,
    frames: [u64; 2],
    regions: [u64; 2],
    resets: u64,
    different: u64,
}

struct Stream {
    pair: Pair,
    world: World,
    rate: u64,
    sound: Sound,
    /// By how many samples each channel follows the sound, and the index of its next sample.
    delay: [u64; 2],
    index: [u64; 2],
}

impl Stream {
    fn new(random: &mut Random) -> Stream {
        let rate = random.one_of(&[8000, 8500, 11025, 16000, 22050, 44100, 48000]);
        let ceiling = random.one_of(&[5, 20, 40, 80, 250]);
        let world = World::new(rate, ceiling);
        let most = ceiling as u64 * rate as u64 / 1000 + 1;
        Stream {
            pair: Pair::over(&world),
            world,
            rate: rate as u64,
            sound: Sound::new(rate as u64),
            delay: [random.below(most), random.below(most)],
            index: [random.below(1000), random.below(1000)],
        }
    }

    /// Three seconds.
    fn play(mut self, random: &mut Random, totals: &mut Totals) -> Result<(), String> {
        for _ in 0..3 * self.rate / 1500 {
            let count = random.between(0, 3000);
            self.far(random, count, totals)?;
            for _ in 0..2 {
                let channel = random.below(2) as usize;
                self.listen(random, channel, totals)?;
                self.look_after(random, channel, totals)?;
            }
            if random.once_in(1000) {
                self.make(random, Call::Common(ScanCall::Reset), totals)?;
                totals.resets += 1;
                self.sound.played.clear();
                self.index = [random.below(1000), random.below(1000)];
            }
        }
        Ok(())
    }

    /// One call on both sides: the answer.
    fn make(
        &mut self,
        random: &mut Random,
        call: Call,
        totals: &mut Totals,
    ) -> Result<u32, String> {
        lend_values(random, &mut self.world, &call);
        self.pair.lend_scratch(&self.world, &call);
        let tried = attempt(&mut self.pair, &mut self.world, &call);
        totals.calls += 1;
        totals.refused += (tried.got < 16) as u64;
        match tried.wrong {
            Some(what) => Err(format!("{call:?}: {what}")),
            None => Ok(tried.got),
        }
    }

    fn on(
        &mut self,
        random: &mut Random,
        channel: usize,
        call: ScanCall,
        totals: &mut Totals,
    ) -> Result<u32, String> {
        self.make(random, Call::Channel(channel as u32, call), totals)
    }

    /// Now and then one of the samples is no number first, and none is taken.
    fn far(&mut self, random: &mut Random, count: u64, totals: &mut Totals) -> Result<(), String> {
        let samples = self.sound.next(random, count);
        if count > 0 && random.once_in(20) {
            let mut spoilt = samples.clone();
            spoilt[random.below(count) as usize] = f32::NAN;
            self.world.samples = Lent::of(&spoilt);
            self.make(random, Call::Common(ScanCall::PushFar), totals)?;
        }
        self.world.samples = Lent::of(&samples);
        self.make(random, Call::Common(ScanCall::PushFar), totals)?;
        self.sound.played.extend(&samples);
        Ok(())
    }

    /// A channel hears what has been played, in runs and single samples, and scores its frames.
    fn listen(
        &mut self,
        random: &mut Random,
        channel: usize,
        totals: &mut Totals,
    ) -> Result<(), String> {
        while self.index[channel] < self.sound.played.len() as u64 {
            let first = self.index[channel];
            let left = self.sound.played.len() as u64 - first;
            let most = random.one_of(&[1, 16, 500, 2000]);
            let count = random.between(1, most).min(left);
            let mut heard: Vec<f32> = (first..first + count)
                .map(|index| self.sound.heard(index, self.delay[channel]))
                .collect();
            if random.once_in(60) {
                heard[random.below(count) as usize] = f32::INFINITY;
            }
            let answer = if count == 1 {
                let (sample, index) = (heard[0], first);
                self.on(
                    random,
                    channel,
                    ScanCall::PushNear { sample, index },
                    totals,
                )?
            } else {
                self.world.samples = Lent::of(&heard);
                self.on(random, channel, ScanCall::PushNearRun { first }, totals)?
            };
            let full = answer == 19;
            let taken = match answer {
                0..=15 => count,
                _ if count == 1 => 1,
                _ => self.world.values.all()[0],
            };
            self.index[channel] += taken;
            if full {
                self.score(random, channel, totals)?;
            }
            if random.once_in(200) {
                // A hole, or none: some samples are left out or come again.
                let index = self.index[channel] + random.below(40);
                self.index[channel] = index.saturating_sub(20);
            }
        }
        Ok(())
    }

    /// Scores a full frame, now and then after calls that are refused.
    fn score(
        &mut self,
        random: &mut Random,
        channel: usize,
        totals: &mut Totals,
    ) -> Result<(), String> {
        if random.once_in(10) {
            let index = self.index[channel];
            self.on(
                random,
                channel,
                ScanCall::PushNear { sample: 0.5, index },
                totals,
            )?;
            self.make(random, Call::Channel(2, ScanCall::Observe), totals)?;
            self.on(random, 1 - channel, ScanCall::Observe, totals)?;
        }
        self.on(random, channel, ScanCall::Observe, totals)?;
        totals.frames[channel] += 1;
        Ok(())
    }

    /// Asks both channels, rearms a finished one, and now and then rearms or discards one in the middle.
    fn look_after(
        &mut self,
        random: &mut Random,
        channel: usize,
        totals: &mut Totals,
    ) -> Result<(), String> {
        let asked = random.one_of(&[
            ScanCall::Frames,
            ScanCall::Correlation,
            ScanCall::Region,
            ScanCall::BeyondCeiling,
            ScanCall::Exhausted,
        ]);
        for channel in 0..2 {
            self.on(random, channel, asked, totals)?;
        }
        if self.on(random, channel, ScanCall::Finished, totals)? == 17 {
            totals.regions[channel] +=
                (self.on(random, channel, ScanCall::Region, totals)? == 17) as u64;
            self.on(random, channel, ScanCall::Rearm, totals)?;
        } else if random.once_in(100) {
            let call = random.one_of(&[ScanCall::Rearm, ScanCall::DiscardNear]);
            self.on(random, channel, call, totals)?;
        }
        Ok(())
    }
}
