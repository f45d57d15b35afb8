//! What was tried and what came of it.

use crate::trial::Tried;

/// Numbers below this are refusals.
const ANSWERS: usize = 16;
const MOST: usize = 32;
const TOLD: u64 = 5;

pub struct Tally {
    what: &'static str,
    seed: u64,
    answers: Vec<(&'static str, [u64; MOST])>,
    cases: u64,
    damaged: u64,
    /// Calls that were lent a NaN that signals or carries a payload, and those of them that were answered.
    payloads: (u64, u64),
    calls: u64,
    different: u64,
}

impl Tally {
    pub fn new(what: &'static str, seed: u64) -> Tally {
        Tally {
            what,
            seed,
            answers: Vec::new(),
            cases: 0,
            damaged: 0,
            payloads: (0, 0),
            calls: 0,
            different: 0,
        }
    }

    /// A case that has a name.
    pub fn case(&mut self, call: &str, tried: &Tried) {
        self.cases += 1;
        self.judged(call, tried);
    }

    pub fn count(&mut self, call: &'static str, tried: &Tried, damaged: bool) {
        self.calls += 1;
        self.damaged += damaged as u64;
        self.payloads.0 += tried.payload as u64;
        self.payloads.1 += (tried.payload && tried.got as usize >= ANSWERS) as u64;
        self.answers(call)[(tried.got as usize).min(MOST - 1)] += 1;
        self.judged(call, tried);
    }

    fn judged(&mut self, call: &str, tried: &Tried) {
        if let Some(what) = &tried.wrong {
            self.differs(call, what);
        }
    }

    fn answers(&mut self, call: &'static str) -> &mut [u64; MOST] {
        let known = self.answers.iter().position(|(known, _)| *known == call);
        let at = known.unwrap_or(self.answers.len());
        if known.is_none() {
            self.answers.push((call, [0; MOST]));
        }
        &mut self.answers[at].1
    }

    /// Tells the first few differences.
    pub fn differs(&mut self, call: &str, what: &str) {
        self.different += 1;
        if self.different <= TOLD {
            let (part, seed, calls) = (self.what, self.seed, self.calls);
            println!("{part} seed {seed}, call {calls} ({call}): {what}");
        }
    }

    /// A line for each sort of call and one for all of them; whether nothing differed.
    pub fn print(&self) -> bool {
        for (name, answers) in &self.answers {
            let told = |from: usize, to: usize| -> String {
                let each = (from..to).filter(|&n| answers[n] > 0);
                each.map(|n| format!(" {n}: {}", answers[n])).collect()
            };
            let (refused, answered) = (told(0, ANSWERS), told(ANSWERS, MOST));
            println!("  {name}: refused{refused}; answered{answered}");
        }
        let refusals = self.answers.iter().flat_map(|(_, of)| &of[..ANSWERS]);
        let refused: u64 = refusals.sum();
        println!(
            "{} seed {}: {} named cases; {} calls, {} after damage, {refused} refused, {} answered; {} lent a NaN's payload, {} of them answered; {} different",
            self.what,
            self.seed,
            self.cases,
            self.calls,
            self.damaged,
            self.calls - refused,
            self.payloads.0,
            self.payloads.1,
            self.different
        );
        self.different == 0
    }
}
