//! The verdicts of states on formulas.

use crate::formula::{read, Fault, Record};
use crate::model::{Model, Row, WHOLE};
use crate::untils::{certain, never, positive};

/// Verdicts: no, yes, undecided.
pub const NO: u8 = 0;
pub const YES: u8 = 1;
pub const UNDECIDED: u8 = 2;

/// The two ends of a state.
pub type Ends = (u64, u64);

/// A formula's records, the verdicts of each on every state, and the ends of each state where the whole formula is a next or
/// an until with steps.
#[derive(Debug)]
pub struct Judged {
    pub records: Vec<Record>,
    pub verdicts: Vec<Vec<u8>>,
    pub ends: Option<Vec<Ends>>,
}

/// The sizes of the buffers that a judge is lent: records, bytes of scratch, bytes of out.
#[derive(Clone, Copy, Debug)]
pub struct Sizes {
    pub records: usize,
    pub scratch: usize,
    pub out: usize,
}

impl Sizes {
    /// Room for every formula on so many states.
    pub fn ample(states: usize) -> Sizes {
        Sizes { records: 64, scratch: 64 * states, out: states }
    }
}

/// Judges a formula's text with buffers of the sizes.
pub fn judge(model: &Model, text: &[u8], sizes: Sizes) -> Result<Judged, Fault> {
    let records = read(text, sizes.records)?;
    if sizes.scratch < records.len() * model.size() {
        return Err(Fault { number: 26, place: 0 });
    }
    if sizes.out != model.size() {
        return Err(Fault { number: 27, place: 0 });
    }
    let mut verdicts: Vec<Vec<u8>> = Vec::new();
    let mut ends = None;
    for record in &records {
        let (verdict, of_record) = evaluate(model, record, &verdicts);
        verdicts.push(verdict);
        ends = of_record;
    }
    Ok(Judged { records, verdicts, ends })
}

/// The verdicts of a record, given those of the records before it, and its ends where it has some.
fn evaluate(model: &Model, record: &Record, before: &[Vec<u8>]) -> (Vec<u8>, Option<Vec<Ends>>) {
    let states = 0..model.size();
    match record.kind {
        0 => (vec![YES; model.size()], None),
        1 => {
            let letter = b'a' + record.number as u8;
            (states.map(|s| u8::from(model.states[s].labels.contains(&letter))).collect(), None)
        }
        2 => (before[record.first].iter().map(|&verdict| not(verdict)).collect(), None),
        3 => (states.map(|s| and(before[record.first][s], before[record.second][s])).collect(), None),
        4 | 5 => {
            let ends = probability_ends(model, record, before);
            let read = |&(lower, upper): &Ends| read_off(record.comparison, record.number, lower, upper);
            (ends.iter().map(read).collect(), Some(ends))
        }
        _ => (without_steps(model, record, &before[record.first], &before[record.second]), None),
    }
}

fn not(verdict: u8) -> u8 {
    [YES, NO, UNDECIDED][verdict as usize]
}

fn and(left: u8, right: u8) -> u8 {
    match (left, right) {
        (YES, YES) => YES,
        (NO, _) | (_, NO) => NO,
        _ => UNDECIDED,
    }
}

/// The states that are yes.
fn sure(verdicts: &[u8]) -> Vec<bool> {
    verdicts.iter().map(|&verdict| verdict == YES).collect()
}

/// The states that are not no.
fn possible(verdicts: &[u8]) -> Vec<bool> {
    verdicts.iter().map(|&verdict| verdict != NO).collect()
}

/// The ends of a next or of an until with steps: the lower by the sure sets of the parts, the upper by the possible ones.
fn probability_ends(model: &Model, record: &Record, before: &[Vec<u8>]) -> Vec<Ends> {
    let best = record.comparison <= 2;
    let end = |set: fn(&[u8]) -> Vec<bool>, up: bool| {
        let first = set(&before[record.first]);
        if record.kind == 4 {
            return next_end(model, &first, best, up);
        }
        until_end(model, &first, &set(&before[record.second]), best, record.steps, up)
    };
    end(sure, false).into_iter().zip(end(possible, true)).collect()
}

/// One end of a next.
fn next_end(model: &Model, set: &[bool], best: bool, up: bool) -> Vec<u64> {
    let values: Vec<u64> = set.iter().map(|&inside| if inside { WHOLE } else { 0 }).collect();
    (0..model.size()).map(|s| value(model, s, &values, best, up)).collect()
}

/// One end of an until with so many steps. States in right or not in left keep what they begin with.
pub fn until_end(model: &Model, left: &[bool], right: &[bool], best: bool, steps: u64, up: bool) -> Vec<u64> {
    let mut values: Vec<u64> = right.iter().map(|&inside| if inside { WHOLE } else { 0 }).collect();
    for _ in 0..steps {
        let next = |s: usize| if left[s] && !right[s] { value(model, s, &values, best, up) } else { values[s] };
        let after: Vec<u64> = (0..model.size()).map(next).collect();
        if after == values {
            break;
        }
        values = after;
    }
    values
}

/// The greatest or the least rounded mean among the choices of a state.
fn value(model: &Model, s: usize, values: &[u64], best: bool, up: bool) -> u64 {
    let mean = |row: &Row| {
        let sum: u64 = row.iter().map(|&(target, weight)| weight * values[target]).sum();
        let rest = sum % model.denominator;
        (sum - rest) / model.denominator + u64::from(up && rest > 0)
    };
    let means = model.states[s].choices.iter().map(mean);
    if best { means.max().unwrap() } else { means.min().unwrap() }
}

/// Does the value fit the comparison (1 to 4: less, at most, more, at least) with the bound?
fn compares(value: u64, comparison: u8, bound: u64) -> bool {
    match comparison {
        1 => value < bound,
        2 => value <= bound,
        3 => value > bound,
        _ => value >= bound,
    }
}

/// The verdict that two ends give.
pub fn read_off(comparison: u8, bound: u64, lower: u64, upper: u64) -> u8 {
    let (hard, easy) = if comparison >= 3 { (lower, upper) } else { (upper, lower) };
    match (compares(hard, comparison, bound), compares(easy, comparison, bound)) {
        (true, _) => YES,
        (false, false) => NO,
        _ => UNDECIDED,
    }
}

/// The verdicts of an until without steps.
fn without_steps(model: &Model, record: &Record, left: &[u8], right: &[u8]) -> Vec<u8> {
    let holds = match (record.comparison, record.number) {
        (2, _) => never,
        (_, 0) => positive,
        _ => certain,
    };
    let of_sure = holds(model, &sure(left), &sure(right));
    let of_possible = holds(model, &possible(left), &possible(right));
    let (hard, easy) = if record.comparison == 2 { (of_possible, of_sure) } else { (of_sure, of_possible) };
    let verdict = |(hard, easy): (&bool, &bool)| match (hard, easy) {
        (true, _) => YES,
        (false, false) => NO,
        _ => UNDECIDED,
    };
    hard.iter().zip(&easy).map(verdict).collect()
}
