//! The tracker: follows a locked delay, cycle by cycle.

use crate::answers::{answer, done, flag, report, unknown, Refusal};
use crate::face::tracker as face;

pub(crate) const WORDS: usize = 15;

/// One concluded cycle.
#[derive(Clone, Copy, PartialEq, Eq, Debug)]
pub enum Cycle {
    /// No candidate.
    Unconfident,
    /// A candidate with this delay, inside the search range.
    Interior(u64),
    /// A candidate with this delay, pinned to an edge of it.
    Edge(u64),
}

/// Why to search anew.
#[derive(Clone, Copy, PartialEq, Eq, Debug)]
pub enum Trigger {
    /// Candidates stayed pinned to an edge.
    Edge,
    /// No confident cycle for too long.
    Lost,
    /// Candidates contradict each other.
    Jump,
    /// Not confirmed after a discontinuity.
    Seam,
}

/// What a cycle came to.
#[derive(Clone, Copy, PartialEq, Eq, Debug)]
pub enum Verdict {
    /// The alignment stands.
    Hold,
    /// To this alignment.
    Move(u64),
    /// Search anew.
    Reacquire(Trigger),
}

/// A tracker.
#[derive(Clone, Debug)]
pub struct Tracker {
    state: [u64; WORDS],
}

impl Tracker {
    /// A tracker for a lock at this rate.
    pub fn new(rate: u32) -> Result<Tracker, Refusal> {
        let mut state = [0; WORDS];
        done(face::new(&mut state, rate))?;
        Ok(Tracker { state })
    }

    /// One concluded cycle at this alignment.
    pub fn on_cycle(&mut self, alignment: u64, cycle: Cycle) -> Result<Verdict, Refusal> {
        let (kind, delay) = match cycle {
            Cycle::Unconfident => (0, 0),
            Cycle::Interior(delay) => (1, delay),
            Cycle::Edge(delay) => (2, delay),
        };
        let mut values = [0];
        match answer(face::on_cycle(&mut self.state, alignment, kind, delay, &mut values))? {
            0 => Ok(Verdict::Hold),
            1 => Ok(Verdict::Move(values[0])),
            2 => Ok(Verdict::Reacquire(Trigger::Edge)),
            3 => Ok(Verdict::Reacquire(Trigger::Lost)),
            4 => Ok(Verdict::Reacquire(Trigger::Jump)),
            5 => Ok(Verdict::Reacquire(Trigger::Seam)),
            case => unknown(case),
        }
    }

    /// The stream was cut: the lock is suspect until it is confirmed again.
    pub fn on_discontinuity(&mut self) -> Result<(), Refusal> {
        done(face::on_discontinuity(&mut self.state))
    }

    /// The standing run of contradicting cycles.
    pub fn jump_cycles(&self) -> Result<u64, Refusal> {
        report(|values| face::jump_cycles(&self.state, values))
    }

    /// The largest run of them since the making.
    pub fn longest_run(&self) -> Result<u64, Refusal> {
        report(|values| face::longest_run(&self.state, values))
    }

    /// Whether the lock is suspect.
    pub fn suspect(&self) -> Result<bool, Refusal> {
        flag(face::suspect(&self.state))
    }

    /// Whether the tracker has no unfinished business.
    pub fn quiescent(&self) -> Result<bool, Refusal> {
        flag(face::quiescent(&self.state))
    }
}
