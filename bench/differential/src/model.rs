//! Models: their states, choices and labels; ladders, held states, and the text of a model.

use std::collections::BTreeSet;

/// The units of the whole.
pub const WHOLE: u64 = 1_000_000_000;

/// The branches of a choice: targets in ascending order, each with its weight.
pub type Row = Vec<(usize, u64)>;

#[derive(Clone, Debug, PartialEq)]
pub struct State {
    pub labels: BTreeSet<u8>,
    pub choices: Vec<Row>,
}

#[derive(Clone, Debug, PartialEq)]
pub struct Model {
    pub denominator: u64,
    pub states: Vec<State>,
}

impl Model {
    /// How many states there are.
    pub fn size(&self) -> usize {
        self.states.len()
    }

    /// How many choices all states have together.
    pub fn choices(&self) -> usize {
        self.states.iter().map(|s| s.choices.len()).sum()
    }

    /// How many branches all choices have together.
    pub fn branches(&self) -> usize {
        self.states.iter().flat_map(|s| &s.choices).map(|row| row.len()).sum()
    }

    /// The ladder of three numbers, or the number of its refusal.
    pub fn ladder(rungs: u64, denominator: u64, weight: u64) -> Result<Model, u32> {
        if rungs < 1 || rungs > 511 {
            return Err(40);
        }
        if denominator < 1 || denominator > 1_000_000 {
            return Err(41);
        }
        if weight < 1 || weight > denominator {
            return Err(42);
        }
        let top = rungs as usize;
        let states = (0..=top).map(|s| rung(s, top, denominator, weight)).collect();
        Ok(Model { denominator, states })
    }

    /// Holds a state: its one choice goes back to itself. A state that there is not is refused with 43.
    pub fn hold(&mut self, state: u64) -> Result<(), u32> {
        if state >= self.size() as u64 {
            return Err(43);
        }
        let whole = self.denominator;
        self.states[state as usize].choices = vec![vec![(state as usize, whole)]];
        Ok(())
    }

    /// The model's text.
    pub fn text(&self) -> Vec<u8> {
        let mut text = format!("mdp\t{}\t{}\n", self.size(), self.denominator);
        for state in &self.states {
            text += &format!("s\t{}\n", labels_text(&state.labels));
            for row in &state.choices {
                text += "c\n";
                for (target, weight) in row {
                    text += &format!("b\t{}\t{}\n", target, weight);
                }
            }
        }
        text += "end\n";
        text.into_bytes()
    }

    /// What `show` prints of the model.
    pub fn listing(&self) -> Vec<String> {
        let mut lines = vec![
            format!("bytes {}", self.text().len()),
            format!("states {}", self.size()),
            format!("denominator {}", self.denominator),
            format!("choices {}", self.choices()),
            format!("branches {}", self.branches()),
        ];
        for (number, state) in self.states.iter().enumerate() {
            let choices: Vec<String> = state.choices.iter().enumerate().map(|(c, row)| choice_text(c, row)).collect();
            lines.push(format!("state {} labels {}: {}", number, labels_text(&state.labels), choices.join("; ")));
        }
        lines
    }
}

/// A state of a ladder.
fn rung(s: usize, top: usize, denominator: u64, weight: u64) -> State {
    let mut choices = vec![vec![(s, denominator)]];
    let mut labels = BTreeSet::new();
    if s < top {
        let climb = [(0, denominator - weight), (s + 1, weight)];
        choices.push(climb.into_iter().filter(|branch| branch.1 > 0).collect());
    } else {
        labels.insert(b'a');
    }
    if s == 0 {
        labels.insert(b'b');
    }
    State { labels, choices }
}

/// Labels as they are written.
pub fn labels_text(labels: &BTreeSet<u8>) -> String {
    if labels.is_empty() {
        return "-".to_string();
    }
    labels.iter().map(|&letter| letter as char).collect()
}

/// A choice as `show` prints it.
fn choice_text(number: usize, row: &Row) -> String {
    let branches: Vec<String> = row.iter().map(|(target, weight)| format!("{} with {}", target, weight)).collect();
    format!("choice {}: {}", number, branches.join(", "))
}
