//! Request m's sentences, applied to a list of what happened as one would by hand: each looks back over the list anew and remembers nothing.
//! Nothing here is taken from the tracker, of the original or of this tree.

#[derive(Clone, Copy, PartialEq, Eq)]
pub enum Happening {
    Unconfident,
    Interior { alignment: u64, delay: u64 },
    Edge,
    Discontinuity,
}

use Happening::{Discontinuity, Edge, Interior, Unconfident};

/// What happened to one tracker since it was made, the first happening first.
pub struct History {
    late: u64,
    early: u64,
    agreement: u64,
    pub happened: Vec<Happening>,
}

impl History {
    pub fn new(rate: u32) -> History {
        let samples = |ms: u64| (ms * rate as u64 / 1000).max(1);
        History {
            late: samples(4),
            early: samples(48),
            agreement: samples(24),
            happened: Vec::new(),
        }
    }

    /// "the present cycle ends a run of at least eight unconfident cycles with no discontinuity inside it and suspicion is off"
    pub fn lost(&self, present: usize) -> bool {
        self.ends_run(present, 8) && !self.suspicion(present)
    }

    /// "the same with four and suspicion on"
    pub fn seam(&self, present: usize) -> bool {
        self.ends_run(present, 4) && self.suspicion(present)
    }

    /// "the present cycle is an edge candidate and at least three have come since the last interior candidate or discontinuity,
    /// unconfident cycles between them not counting"
    pub fn edge(&self, present: usize) -> bool {
        let last = |n: usize| matches!(self.happened[n], Interior { .. } | Discontinuity);
        let came = since_last(present + 1, last).filter(|&n| self.happened[n] == Edge);
        self.happened[present] == Edge && came.count() >= 3
    }

    /// "the candidate is interior, outside the bands and within the agreement distance of a pending delay"
    pub fn moved(&self, present: usize) -> bool {
        let Interior { delay, .. } = self.happened[present] else {
            return false;
        };
        let near = |pending: u64| delay.abs_diff(pending) <= self.agreement;
        self.outside(present) && self.pending(present).is_some_and(near)
    }

    /// "a pending delay, which is that of the latest earlier interior candidate outside the bands, with no move then or since and no edge
    /// candidate, candidate inside the bands or discontinuity since"
    pub fn pending(&self, present: usize) -> Option<u64> {
        let latest = (0..present).rev().find(|&n| self.outside(n))?;
        let mut since = latest + 1..present;
        let cleared = since.any(|n| {
            self.moved(n) || self.inside(n) || matches!(self.happened[n], Edge | Discontinuity)
        });
        match self.happened[latest] {
            Interior { delay, .. } if !cleared && !self.moved(latest) => Some(delay),
            _ => None,
        }
    }

    /// "a discontinuity came after the last cycle that moved or found an interior candidate inside the bands, or at all if none did"
    pub fn suspicion(&self, present: usize) -> bool {
        since_last(present, |n| self.moved(n) || self.inside(n))
            .any(|n| self.happened[n] == Discontinuity)
    }

    fn ends_run(&self, present: usize, least: usize) -> bool {
        let run = &self.happened[..=present];
        run.len() >= least
            && run[run.len() - least..]
                .iter()
                .all(|&what| what == Unconfident)
    }

    /// An interior candidate outside the bands.
    fn outside(&self, n: usize) -> bool {
        match self.happened[n] {
            Interior { alignment, delay } => {
                delay + self.late < alignment || alignment + self.early < delay
            }
            _ => false,
        }
    }

    /// An interior candidate inside the bands.
    fn inside(&self, n: usize) -> bool {
        matches!(self.happened[n], Interior { .. }) && !self.outside(n)
    }
}

/// The places before `end` that come after the last one of which `is` holds; all of them if it holds of none.
fn since_last(end: usize, is: impl Fn(usize) -> bool) -> std::ops::Range<usize> {
    let last = (0..end).rev().find(|&n| is(n));
    last.map_or(0, |n| n + 1)..end
}
