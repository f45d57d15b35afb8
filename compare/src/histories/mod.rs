//! Request m: when the tracker gives up, told from the history by a referee and by the unchanged track.rs, side by side.

mod sentences;
mod walk;

use crate::delay::ReacquireTrigger;
use crate::random::Random;
use crate::track::{CycleOutcome, TrackVerdict, Tracker};
use sentences::{Happening, History};
use walk::Walk;

const SHOWN: usize = 5;
const VERDICTS: [&str; 6] = ["hold", "move", "edge", "lost", "jump", "seam"];

/// Tries so many cycles, in histories from a new tracker each.
pub fn run(seed: u64, cycles: usize) -> Result<(), String> {
    let mut random = Random::new(seed);
    let mut tally = Tally::default();
    while tally.cycles() < cycles {
        tally.histories += 1;
        let most = cycles - tally.cycles();
        one(&mut random, most, &mut tally);
    }
    println!(
        "histories: {} cycles in {} histories from a new tracker, {} discontinuities",
        tally.cycles(),
        tally.histories,
        tally.discontinuities
    );
    let counts = VERDICTS.iter().zip(tally.verdicts);
    let counts: Vec<String> = counts
        .map(|(name, count)| format!("{name} {count}"))
        .collect();
    println!("histories: {}", counts.join(", "));
    println!("histories: {} different", tally.different);
    if tally.different > 0 {
        return Err("histories: the sentences and the original differ".to_string());
    }
    if tally.verdicts.contains(&0) {
        return Err("histories: a verdict never came, so the run shows too little".to_string());
    }
    Ok(())
}

#[derive(Default)]
struct Tally {
    histories: usize,
    discontinuities: usize,
    verdicts: [usize; VERDICTS.len()],
    different: usize,
}

impl Tally {
    fn cycles(&self) -> usize {
        self.verdicts.iter().sum()
    }

    fn differs(&mut self, rate: u32, present: usize, what: &str) {
        self.different += 1;
        if self.different <= SHOWN {
            println!(
                "histories: history {}, rate {rate}, happening {present}: {what}",
                self.histories
            );
        }
    }
}

/// One history from a new tracker, of no more than `most` cycles.
fn one(random: &mut Random, most: usize, tally: &mut Tally) {
    let mut walk = Walk::new(random);
    let mut history = History::new(walk.rate);
    let mut tracker = Tracker::new(walk.rate);
    let end = tally.cycles() + most;
    for _ in 0..random.between(1, 120) {
        if tally.cycles() == end {
            return;
        }
        let (what, alignment) = walk.next(random);
        let present = history.happened.len();
        history.happened.push(what);
        let outcome = match what {
            Happening::Unconfident => CycleOutcome::Unconfident,
            Happening::Interior { delay, .. } => candidate(delay, true),
            Happening::Edge => candidate(walk.edge, false),
            Happening::Discontinuity => {
                tally.discontinuities += 1;
                tracker.on_discontinuity();
                hold_state(&history, &tracker, walk.rate, tally);
                continue;
            }
        };
        let verdict = tracker.on_cycle(alignment as usize, outcome);
        tally.verdicts[number(verdict)] += 1;
        if let Err(what) = judge(&history, present, verdict, &tracker) {
            tally.differs(walk.rate, present, what);
        }
        hold_state(&history, &tracker, walk.rate, tally);
        walk.heed(random, verdict);
    }
}

fn candidate(delay: u64, interior: bool) -> CycleOutcome {
    CycleOutcome::Candidate {
        delay: delay as usize,
        interior,
    }
}

/// The verdict is one of the four exactly when its sentence holds, and a move leaves what the request says.
fn judge(
    history: &History,
    present: usize,
    verdict: TrackVerdict,
    tracker: &Tracker,
) -> Result<(), &'static str> {
    let name = VERDICTS[number(verdict)];
    let said = [
        ("lost", history.lost(present)),
        ("seam", history.seam(present)),
        ("edge", history.edge(present)),
        ("move", history.moved(present)),
    ];
    for (verdict, holds) in said {
        if (verdict == name) != holds {
            return Err(verdict);
        }
    }
    let (TrackVerdict::Move(target), Happening::Interior { delay, .. }) =
        (verdict, history.happened[present])
    else {
        return Ok(());
    };
    let fields = tracker.fields();
    if fields.pending.is_some() || fields.jump_cycles != 0 || target as u64 > delay {
        return Err("what a move leaves");
    }
    Ok(())
}

/// Pending and suspicion are what their sentences say of the history so far.
fn hold_state(history: &History, tracker: &Tracker, rate: u32, tally: &mut Tally) {
    let (end, fields) = (history.happened.len(), tracker.fields());
    if fields.pending.map(|delay| delay as u64) != history.pending(end) {
        tally.differs(rate, end, "pending");
    }
    if fields.suspect != history.suspicion(end) {
        tally.differs(rate, end, "suspicion");
    }
}

/// The place of a verdict among the names.
fn number(verdict: TrackVerdict) -> usize {
    match verdict {
        TrackVerdict::Hold => 0,
        TrackVerdict::Move(_) => 1,
        TrackVerdict::Reacquire(ReacquireTrigger::TrackingEdge) => 2,
        TrackVerdict::Reacquire(ReacquireTrigger::ConfidenceLost) => 3,
        TrackVerdict::Reacquire(ReacquireTrigger::EstimatorJumping) => 4,
        TrackVerdict::Reacquire(ReacquireTrigger::Discontinuity) => 5,
    }
}
