//! What formulas mean on very small models, found from the definitions: adversaries are listed one by one, and nothing is rounded.

use crate::formula::Record;
use crate::model::{Model, Row, WHOLE};

/// The runs of an adversary: paths, oldest state first, with their weights.
pub type Runs = Vec<(Vec<usize>, u128)>;

/// The runs of so many further steps of each adversary, given its runs so far. The adversary chooses for each path by itself.
pub fn adversaries(model: &Model, so_far: Runs, steps: usize) -> Vec<Runs> {
    if steps == 0 {
        return vec![so_far];
    }
    let mut lists: Vec<Runs> = vec![Vec::new()];
    for (path, weight) in &so_far {
        let rows = &model.states[path[path.len() - 1]].choices;
        let longer = |row: &Row| -> Runs {
            row.iter().map(|&(target, w)| ([&path[..], &[target]].concat(), weight * u128::from(w))).collect()
        };
        lists = lists.iter().flat_map(|list| rows.iter().map(|row| [&list[..], &longer(row)].concat())).collect();
    }
    lists.into_iter().flat_map(|list| adversaries(model, list, steps - 1)).collect()
}

/// The weight of the runs that meet "left until right".
pub fn tally(runs: &Runs, left: &[bool], right: &[bool]) -> u128 {
    let meets = |path: &[usize]| (0..path.len()).any(|i| right[path[i]] && path[..i].iter().all(|&s| left[s]));
    runs.iter().filter(|(path, _)| meets(path)).map(|run| run.1).sum()
}

/// How many adversaries `adversaries` lists, as far as that can be told before; saturating.
pub fn count(model: &Model, s: usize, steps: usize) -> u64 {
    if steps == 0 {
        return 1;
    }
    let below = |row: &Row| row.iter().fold(1u64, |product, branch| product.saturating_mul(count(model, branch.0, steps - 1)));
    model.states[s].choices.iter().fold(0u64, |sum, row| sum.saturating_add(below(row)))
}

/// The least and the greatest tally of each state with so many steps, out of the denominator to the power of the steps. What an
/// adversary does after one branch does not bind what it does after another, so the extremes of the targets add up.
pub fn extremes(model: &Model, left: &[bool], right: &[bool], steps: u32) -> Vec<(u128, u128)> {
    let mut values: Vec<(u128, u128)> = right.iter().map(|&inside| (u128::from(inside), u128::from(inside))).collect();
    let mut whole = 1u128;
    for _ in 0..steps {
        whole *= u128::from(model.denominator);
        let sum = |row: &Row, values: &[(u128, u128)]| {
            let add = |sum: (u128, u128), &(target, w): &(usize, u64)| {
                (sum.0 + u128::from(w) * values[target].0, sum.1 + u128::from(w) * values[target].1)
            };
            row.iter().fold((0, 0), add)
        };
        let next = |s: usize| {
            if right[s] {
                return (whole, whole);
            }
            if !left[s] {
                return (0, 0);
            }
            let sums: Vec<(u128, u128)> = model.states[s].choices.iter().map(|row| sum(row, &values)).collect();
            (sums.iter().map(|sum| sum.0).min().unwrap(), sums.iter().map(|sum| sum.1).max().unwrap())
        };
        values = (0..model.size()).map(next).collect();
    }
    values
}

/// The least and the greatest tally of a next, out of the denominator.
pub fn next_extremes(model: &Model, set: &[bool]) -> Vec<(u128, u128)> {
    let sum = |row: &Row| row.iter().filter(|branch| set[branch.0]).map(|branch| u128::from(branch.1)).sum::<u128>();
    let of_state = |s: usize| {
        let sums: Vec<u128> = model.states[s].choices.iter().map(sum).collect();
        (*sums.iter().min().unwrap(), *sums.iter().max().unwrap())
    };
    (0..model.size()).map(of_state).collect()
}

/// The adversaries that choose by the last state alone: a choice for each state.
pub fn memoryless(model: &Model) -> Vec<Vec<usize>> {
    let mut lists: Vec<Vec<usize>> = vec![Vec::new()];
    for state in &model.states {
        let extended = |list: &Vec<usize>| (0..state.choices.len()).map(|choice| [&list[..], &[choice]].concat()).collect::<Vec<_>>();
        lists = lists.iter().flat_map(extended).collect();
    }
    lists
}

/// The probability of "left until right" from each state under the choices, after a million steps.
pub fn probability(model: &Model, choices: &[usize], left: &[bool], right: &[bool]) -> Vec<f64> {
    let n = model.size();
    let mut matrix = vec![vec![0.0; n]; n];
    for s in 0..n {
        if right[s] || !left[s] {
            matrix[s][s] = 1.0;
            continue;
        }
        for &(target, weight) in &model.states[s].choices[choices[s]] {
            matrix[s][target] = weight as f64 / model.denominator as f64;
        }
    }
    for _ in 0..20 {
        let entry = |i: usize, j: usize| (0..n).map(|k| matrix[i][k] * matrix[k][j]).sum::<f64>();
        matrix = (0..n).map(|i| (0..n).map(|j| entry(i, j)).collect()).collect();
    }
    (0..n).map(|s| (0..n).filter(|&t| right[t]).map(|t| matrix[s][t]).sum()).collect()
}

/// Does a tally compare with the bound, both multiplied out?
pub fn fits(tally: u128, comparison: u8, bound: u64, whole: u128) -> bool {
    let (left, right) = (tally * u128::from(WHOLE), u128::from(bound) * whole);
    match comparison {
        1 => left < right,
        2 => left <= right,
        3 => left > right,
        _ => left >= right,
    }
}

/// The set of each record: where it holds, every adversary listed or its extremes found exactly.
pub fn sets(model: &Model, records: &[Record]) -> Vec<Vec<bool>> {
    let mut sets: Vec<Vec<bool>> = Vec::new();
    for record in records {
        let (first, second) = (sets.get(record.first).cloned(), sets.get(record.second).cloned());
        let (first, second) = (first.unwrap_or_default(), second.unwrap_or_default());
        let letter = b'a' + record.number as u8 % 26;
        let has = |s: usize| match record.kind {
            0 => true,
            1 => model.states[s].labels.contains(&letter),
            2 => !first[s],
            _ => first[s] && second[s],
        };
        sets.push(match record.kind {
            0..=3 => (0..model.size()).map(has).collect(),
            6 => open_until(model, record, &first, &second),
            _ => {
                let (extremes, steps) = match record.kind {
                    4 => (next_extremes(model, &first), 1),
                    _ => (extremes(model, &first, &second, record.steps as u32), record.steps as u32),
                };
                let whole = u128::from(model.denominator).pow(steps);
                let holds = |pair: &(u128, u128)| [pair.0, pair.1].iter().all(|&t| fits(t, record.comparison, record.number, whole));
                extremes.iter().map(holds).collect()
            }
        });
    }
    sets
}

/// Where an until without steps holds under each adversary that chooses by the last state alone.
fn open_until(model: &Model, record: &Record, left: &[bool], right: &[bool]) -> Vec<bool> {
    let mut holds = vec![true; model.size()];
    for choices in memoryless(model) {
        let probabilities = probability(model, &choices, left, right);
        for (s, probability) in probabilities.into_iter().enumerate() {
            holds[s] &= match (record.comparison, record.number) {
                (2, _) => probability < 1e-9,
                (_, 0) => probability > 1e-9,
                _ => probability > 1.0 - 1e-5,
            };
        }
    }
    holds
}
