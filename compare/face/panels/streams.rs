//! Whole streams from samples: a panel and a scan are fed the same calls from the making on, each beside its own original. The near side is heard late by turns, so that frames are scored which the scan still covers and
//! the panel no longer does. Request j's sentence is checked call by call: the answers are equal up to the first frame whose window holds a bin that the scan has kept and the panel has overwritten; at that frame the
//! panel says uncovered; and from the next rearm or reset on they are equal again.

use super::{Panel, PANEL};
use crate::course::lend_values;
use crate::lent::{same, Lent};
use crate::random::Random;
use crate::rules::Bins;
use crate::scans::profile::FULL;
use crate::scans::shape::Call;
use crate::scans::sound::Sound;
use crate::scans::world::World;
use crate::scans::{Full, Scan};
use crate::trial::{attempt, Tried};

pub fn run(seed: u64, streams: u64) -> bool {
    let mut random = Random::new(seed);
    let mut totals = Totals::default();
    for stream in 0..streams {
        if let Err(what) = Stream::new(&mut random).play(&mut random, &mut totals) {
            totals.different += 1;
            println!("panel-streams seed {seed}, stream {stream}: {what}");
        }
    }
    let Totals {
        calls,
        refused,
        frames,
        partings,
        heard,
        again,
        regions,
        different,
    } = totals;
    println!(
        "panel-streams seed {seed}: {streams} streams, {calls} calls, {refused} refused, {frames} frames, {regions} regions; {partings} partings, the scan scored {heard} of these frames, {again} rearms and resets after one; {different} different"
    );
    different == 0
}

#[derive(Default)]
struct Totals {
    calls: u64,
    refused: u64,
    frames: u64,
    /// Frames at which the two part, and those of them that the scan did not find uncovered too.
    partings: u64,
    heard: u64,
    /// Rearms and resets that made them agree again.
    again: u64,
    regions: u64,
    different: u64,
}

struct Stream {
    panel: (Scan<Panel>, World),
    full: (Scan<Full>, World),
    /// Whether the two have not parted since the making or the last rearm or reset.
    agree: bool,
    rate: u64,
    sound: Sound,
    delay: u64,
    /// The index of the next near sample, and by how many samples it is to stay behind the far side.
    index: u64,
    late: u64,
}

/// Whether the window of the full frame holds a bin that the scan has kept and the panel has overwritten.
fn parts(w: &World) -> bool {
    let (rate, ceiling) = (w.word(0), w.word(1));
    let (next, first) = (w.word(8), w.word(15));
    let bins = w.bins();
    let oldest = |slack: u64| next.saturating_sub(Bins::with(slack, rate, ceiling).envelope());
    let mut window = first.saturating_sub(bins.span)..first + bins.frame;
    first >= bins.span && window.any(|bin| oldest(FULL.slack) <= bin && bin < oldest(PANEL.slack))
}

/// The words of a state. Without a region, its delay and correlation are left from whichever region was there before.
fn held(w: &World) -> Vec<u64> {
    let mut words = w.state.all().to_vec();
    if w.word(19) == 0 {
        words[20..22].fill(0);
    }
    words
}

impl Stream {
    fn new(random: &mut Random) -> Stream {
        let rate = random.one_of(&[8000, 16000]);
        let ceiling = random.one_of(&[8, 20, 40, 80, 320]);
        Stream {
            panel: Scan::made(rate, ceiling),
            full: Scan::made(rate, ceiling),
            agree: true,
            rate: rate as u64,
            sound: Sound::new(rate as u64),
            delay: random.below(ceiling as u64 * rate as u64 / 1000 + 1),
            index: random.below(1000),
            late: 0,
        }
    }

    /// Eight seconds.
    fn play(mut self, random: &mut Random, totals: &mut Totals) -> Result<(), String> {
        for _ in 0..8 * self.rate / 2000 {
            if random.once_in(6) {
                let bins = random.one_of(&[0, 0, 300, 500, 700, 1500, 3000, 4500]);
                self.late = (bins + random.below(200)) * self.rate / 1000;
            }
            let count = random.between(1, 4000);
            self.far(random, count, totals)?;
            self.listen(random, totals)?;
            self.look_after(random, totals)?;
            if random.once_in(1000) {
                self.make(random, Call::Reset, totals)?;
                self.sound.played.clear();
                self.index = random.below(1000);
            }
        }
        Ok(())
    }

    /// One call on both: the answers of the panel and of the scan.
    fn make(
        &mut self,
        random: &mut Random,
        call: Call,
        totals: &mut Totals,
    ) -> Result<(u32, u32), String> {
        let w = &mut self.panel.1;
        lend_values(random, w, &call);
        self.full.1.values = Lent::of(w.values.all());
        self.full.1.samples = Lent::of(w.samples.all());
        let waits = call == Call::Observe && w.word(12) == w.bins().frame;
        let parting = self.agree && waits && parts(w);
        let narrow = attempt(&mut self.panel.0, &mut self.panel.1, &call);
        let full = attempt(&mut self.full.0, &mut self.full.1, &call);
        totals.calls += 1;
        totals.refused += (narrow.got < 16) as u64;
        totals.frames += waits as u64;
        if matches!(call, Call::Rearm | Call::Reset) && narrow.got == 16 && full.got == 16 {
            totals.again += !self.agree as u64;
            self.agree = true;
        }
        if parting {
            totals.partings += 1;
            totals.heard += (full.got != 16) as u64;
            self.agree = false;
        }
        let answers = (narrow.got, full.got);
        match self.wrong(narrow, full, parting) {
            Some(what) => Err(format!("{call:?}: {what}")),
            None => Ok(answers),
        }
    }

    /// What is not its original's, and what is not as request j has it.
    fn wrong(&self, narrow: Tried, full: Tried, parting: bool) -> Option<String> {
        let (panel, scan) = (&self.panel.1, &self.full.1);
        let told = |what: &str| Some(what.to_string());
        let filled = panel.levels.all().len().min(panel.word(12) as usize);
        let beside = narrow.wrong.map(|what| format!("panel: {what}"));
        let beside = beside.or(full.wrong.map(|what| format!("scan: {what}")));
        if beside.is_some() {
            beside
        } else if panel.state.all()[..12] != scan.state.all()[..12] {
            told("the far sides differ")
        } else if parting && narrow.got != 16 {
            told("the two part here, and the panel does not say uncovered")
        } else if !self.agree {
            None
        } else if narrow.got != full.got || panel.values.all() != scan.values.all() {
            Some(format!(
                "the panel answers {}, the scan {}",
                narrow.got, full.got
            ))
        } else if held(panel) != held(scan) {
            told("the words differ")
        } else if !same(&panel.levels.all()[..filled], &scan.levels.all()[..filled])
            || !same(panel.lag_sums.all(), scan.lag_sums.all())
        {
            told("levels or lag sums differ")
        } else {
            None
        }
    }

    /// Now and then one of the samples is no number first, and none is taken.
    fn far(&mut self, random: &mut Random, count: u64, totals: &mut Totals) -> Result<(), String> {
        let samples = self.sound.next(random, count);
        if random.once_in(40) {
            let mut spoilt = samples.clone();
            spoilt[random.below(count) as usize] = f32::NAN;
            self.panel.1.samples = Lent::of(&spoilt);
            self.make(random, Call::PushFar, totals)?;
        }
        self.panel.1.samples = Lent::of(&samples);
        self.make(random, Call::PushFar, totals)?;
        self.sound.played.extend(&samples);
        Ok(())
    }

    /// Hears what was played so long ago, in runs, and scores the frames.
    fn listen(&mut self, random: &mut Random, totals: &mut Totals) -> Result<(), String> {
        let until = (self.sound.played.len() as u64).saturating_sub(self.late);
        while self.index < until {
            let first = self.index;
            let count = random.between(1, 1500).min(until - first);
            let mut heard: Vec<f32> = (first..first + count)
                .map(|index| self.sound.heard(index, self.delay))
                .collect();
            if random.once_in(60) {
                heard[random.below(count) as usize] = f32::NEG_INFINITY;
            }
            self.panel.1.samples = Lent::of(&heard);
            let answers = self.make(random, Call::PushNearRun { first }, totals)?;
            self.index += match answers.0 {
                0..=15 => count,
                _ => self.panel.1.values.all()[0],
            };
            if answers.0 == 19 || answers.1 == 19 {
                if random.once_in(8) {
                    self.linger(random, totals)?;
                }
                self.make(random, Call::Observe, totals)?;
            }
            if random.once_in(200) {
                // A hole, or none: some samples are left out or come again.
                self.index = (self.index + random.below(40)).saturating_sub(20);
            }
        }
        Ok(())
    }

    /// Lets a full frame wait until the far side is about as far past its end as the panel's history reaches, to the bin.
    fn linger(&mut self, random: &mut Random, totals: &mut Totals) -> Result<(), String> {
        let w = &self.panel.1;
        let bins = w.bins();
        let written = w.word(15) + bins.frame + bins.slack - 1 + random.below(4);
        let count = (written * bins.decimation).saturating_sub(w.word(11));
        match count {
            0 => Ok(()),
            _ => self.far(random, count, totals),
        }
    }

    /// Asks something, rearms where the panel is finished, and now and then rearms or discards in the middle.
    fn look_after(&mut self, random: &mut Random, totals: &mut Totals) -> Result<(), String> {
        let asked = random.one_of(&[
            Call::BinSamples,
            Call::CeilingSamples,
            Call::Frames,
            Call::Correlation,
            Call::Region,
            Call::BeyondCeiling,
            Call::Exhausted,
        ]);
        self.make(random, asked, totals)?;
        if self.make(random, Call::Finished, totals)?.0 == 17 {
            let (found, _) = self.make(random, Call::Region, totals)?;
            totals.regions += (found == 17) as u64;
            self.make(random, Call::Rearm, totals)?;
        } else if random.once_in(20) {
            let call = random.one_of(&[Call::Rearm, Call::DiscardNear]);
            self.make(random, call, totals)?;
        }
        Ok(())
    }
}
