//! Rounds of values.

use crate::model::{Model, Row, WHOLE};

#[derive(Clone, Copy, Debug, PartialEq, Eq)]
pub enum Rule {
    Down,
    Up,
    Marks,
}

/// The mix of a row.
fn mix(rule: Rule, denominator: u64, row: &Row, values: &[u64]) -> u64 {
    let sum: u128 = row.iter().map(|&(target, weight)| u128::from(weight) * u128::from(values[target])).sum();
    let whole = u128::from(denominator);
    match rule {
        Rule::Down => (sum / whole) as u64,
        Rule::Up => ((sum + whole - 1) / whole) as u64,
        Rule::Marks => u64::from(sum > 0),
    }
}

/// The values after one round.
fn round(model: &Model, rule: Rule, greater: bool, values: &[u64]) -> Vec<u64> {
    let best = |rows: &Vec<Row>| {
        let mixes = rows.iter().map(|row| mix(rule, model.denominator, row, values));
        if greater { mixes.max() } else { mixes.min() }
    };
    model.states.iter().map(|state| best(&state.choices).unwrap()).collect()
}

/// The values after so many rounds, and those after one round less, which there are none of with no round.
pub fn rounds(model: &Model, rule: Rule, greater: bool, count: u64, values: &[u64]) -> (Vec<u64>, Option<Vec<u64>>) {
    let mut now = values.to_vec();
    let mut before = None;
    for _ in 0..count {
        let next = round(model, rule, greater, &now);
        let rests = next == now;
        before = Some(std::mem::replace(&mut now, next));
        if rests {
            break;
        }
    }
    (now, before)
}

/// The number with which rounds on the values are refused.
pub fn refusal(model: &Model, rule: Rule, count: u64, values: &[u64]) -> Option<u32> {
    let questions = [
        (39, rule != Rule::Marks && values.iter().any(|&value| value > WHOLE)),
        (37, values.len() != model.size()),
        (38, count > 100_000),
    ];
    questions.into_iter().find(|question| question.1).map(|question| question.0)
}
