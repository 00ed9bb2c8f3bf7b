//! A trial and the calls on it.

use crate::formula::Fault;
use crate::judge::{judge, read_off, until_end, Ends, Judged, Sizes};
use crate::model::{Model, WHOLE};

/// A call; `Hold` holds a state of the source that the trial is made over.
#[derive(Clone, Debug)]
pub enum Call {
    Hold(u64),
    Start { best: bool, left: Vec<u8>, right: Vec<u8> },
    Advance(u64),
    Ends(u64),
    Verdict { state: u64, comparison: u8, bound: u64 },
    Judge { text: Vec<u8>, sizes: Option<Sizes> },
}

#[derive(Debug)]
pub enum Answer {
    Done,
    Refused(u32),
    JudgeRefused(Fault),
    Ends { lower: u64, upper: u64, rounds: u64 },
    Verdict { verdict: u8, lower: u64, upper: u64, rounds: u64 },
    Judged(Judged),
}

/// The query that stands: what it asks, and its rounds.
struct Query {
    best: bool,
    left: Vec<bool>,
    right: Vec<bool>,
    rounds: u64,
}

pub struct Trial {
    pub model: Model,
    query: Option<Query>,
}

impl Trial {
    pub fn new(model: Model) -> Trial {
        Trial { model, query: None }
    }

    /// Is the query that stands one for the best? None where none stands.
    pub fn standing(&self) -> Option<bool> {
        self.query.as_ref().map(|query| query.best)
    }

    /// The answer to a call, and what the call leaves.
    pub fn call(&mut self, call: &Call) -> Answer {
        match call {
            Call::Hold(state) => done(self.model.hold(*state)),
            Call::Start { best, left, right } => done(self.start(*best, left, right)),
            Call::Advance(count) => done(self.advance(*count)),
            Call::Ends(state) => match self.ends(*state) {
                Ok((lower, upper, rounds)) => Answer::Ends { lower, upper, rounds },
                Err(number) => Answer::Refused(number),
            },
            Call::Verdict { state, comparison, bound } => match self.verdict(*state, *comparison, *bound) {
                Ok((verdict, (lower, upper, rounds))) => Answer::Verdict { verdict, lower, upper, rounds },
                Err(number) => Answer::Refused(number),
            },
            Call::Judge { text, sizes } => {
                match judge(&self.model, text, sizes.unwrap_or(Sizes::ample(self.model.size()))) {
                    Ok(judged) => {
                        self.query = None;
                        Answer::Judged(judged)
                    }
                    Err(fault) => Answer::JudgeRefused(fault),
                }
            }
        }
    }

    fn start(&mut self, best: bool, left: &[u8], right: &[u8]) -> Result<(), u32> {
        if left.len() != self.model.size() || right.len() != self.model.size() {
            return Err(30);
        }
        if left.iter().chain(right).any(|&mark| mark > 1) {
            return Err(31);
        }
        let set = |marks: &[u8]| marks.iter().map(|&mark| mark == 1).collect();
        self.query = Some(Query { best, left: set(left), right: set(right), rounds: 0 });
        Ok(())
    }

    fn advance(&mut self, count: u64) -> Result<(), u32> {
        let query = self.query.as_mut().ok_or(32u32)?;
        if u128::from(query.rounds) + u128::from(count) > 100_000 {
            return Err(33);
        }
        query.rounds += count;
        Ok(())
    }

    /// The two ends of every state for the query that stands, all rounds run anew.
    pub fn all_ends(&self) -> Option<Vec<Ends>> {
        let query = self.query.as_ref()?;
        let end = |up| until_end(&self.model, &query.left, &query.right, query.best, query.rounds, up);
        Some(end(false).into_iter().zip(end(true)).collect())
    }

    /// The two ends of a state and the rounds.
    fn ends(&self, state: u64) -> Result<(u64, u64, u64), u32> {
        let query = self.query.as_ref().ok_or(32u32)?;
        if state >= self.model.size() as u64 {
            return Err(34);
        }
        let (lower, upper) = self.all_ends().ok_or(32u32)?[state as usize];
        Ok((lower, upper, query.rounds))
    }

    fn verdict(&self, state: u64, comparison: u8, bound: u64) -> Result<(u8, (u64, u64, u64)), u32> {
        let ends = self.ends(state)?;
        if bound > WHOLE {
            return Err(35);
        }
        if (comparison >= 3) == (self.standing() == Some(true)) {
            return Err(36);
        }
        Ok((read_off(comparison, bound, ends.0, ends.1), ends))
    }
}

/// The answer of a call that tells nothing.
fn done(outcome: Result<(), u32>) -> Answer {
    match outcome {
        Ok(()) => Answer::Done,
        Err(number) => Answer::Refused(number),
    }
}
