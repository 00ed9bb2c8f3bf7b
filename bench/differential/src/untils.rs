//! Untils without steps, by searches of the graph of states and branches: no rounds and no numbers.

use crate::model::Model;

/// The states from which every adversary meets the until with some steps: those that right draws in. A state of left is drawn in
/// once each of its choices has a branch that leads to a state drawn in before; what is drawn in is followed backwards.
pub fn positive(model: &Model, left: &[bool], right: &[bool]) -> Vec<bool> {
    let sources = sources(model);
    let mut open: Vec<Vec<bool>> = model.states.iter().map(|state| vec![true; state.choices.len()]).collect();
    let mut inside = right.to_vec();
    let mut queue: Vec<usize> = (0..model.size()).filter(|&s| right[s]).collect();
    while let Some(target) = queue.pop() {
        for &(s, choice) in &sources[target] {
            open[s][choice] = false;
            if left[s] && !inside[s] && !open[s].contains(&true) {
                inside[s] = true;
                queue.push(s);
            }
        }
    }
    inside
}

/// The states from which no adversary meets the until, whatever the steps: right is searched for backwards through left.
pub fn never(model: &Model, left: &[bool], right: &[bool]) -> Vec<bool> {
    let sources = sources(model);
    let mut reaches = right.to_vec();
    let mut queue: Vec<usize> = (0..model.size()).filter(|&s| right[s]).collect();
    while let Some(target) = queue.pop() {
        for &(s, _) in &sources[target] {
            if left[s] && !reaches[s] {
                reaches[s] = true;
                queue.push(s);
            }
        }
    }
    reaches.into_iter().map(|reached| !reached).collect()
}

/// The states from which every adversary is sure of the until: none of the ways from there, along whatever choices until right
/// is reached, leads out of left, or to a state where some adversary can stay outside right for ever.
pub fn certain(model: &Model, left: &[bool], right: &[bool]) -> Vec<bool> {
    let stays = stays(model, left, right);
    (0..model.size()).map(|s| !leads_to(model, s, right, |t| stays[t] || !left[t] && !right[t])).collect()
}

/// The largest set of states in left and not in right each of which has a choice that stays in the set.
fn stays(model: &Model, left: &[bool], right: &[bool]) -> Vec<bool> {
    let mut inside: Vec<bool> = (0..model.size()).map(|s| left[s] && !right[s]).collect();
    loop {
        let leaves = |s: usize, inside: &[bool]| {
            inside[s] && !model.states[s].choices.iter().any(|row| row.iter().all(|branch| inside[branch.0]))
        };
        match (0..model.size()).find(|&s| leaves(s, &inside)) {
            Some(s) => inside[s] = false,
            None => return inside,
        }
    }
}

/// Does some way from the state lead to a bad one before it comes to right?
fn leads_to(model: &Model, from: usize, right: &[bool], bad: impl Fn(usize) -> bool) -> bool {
    let mut seen = vec![false; model.size()];
    let mut stack = vec![from];
    while let Some(s) = stack.pop() {
        if seen[s] || right[s] {
            continue;
        }
        if bad(s) {
            return true;
        }
        seen[s] = true;
        stack.extend(model.states[s].choices.iter().flatten().map(|branch| branch.0));
    }
    false
}

/// For each state, the states and choices with a branch to it.
fn sources(model: &Model) -> Vec<Vec<(usize, usize)>> {
    let mut sources = vec![Vec::new(); model.size()];
    for (s, state) in model.states.iter().enumerate() {
        for (choice, row) in state.choices.iter().enumerate() {
            for &(target, _) in row {
                sources[target].push((s, choice));
            }
        }
    }
    sources
}
