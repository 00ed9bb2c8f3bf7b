//! Tests of this checker by itself: examples, and very small models on which every adversary can be listed.

use crate::answers::{play_trial, Line, Source};
use crate::cases::{case, COMMANDS};
use crate::exact;
use crate::formula::{read, recognise, Record};
use crate::formulas;
use crate::judge::{judge, until_end, Sizes, NO, UNDECIDED, YES};
use crate::limits;
use crate::load::load;
use crate::model::{Model, State, WHOLE};
use crate::models::{self, Size};
use crate::random::Random;
use crate::rounds::{rounds, Rule};
use crate::trial::Call;
use crate::untils;
use std::collections::{BTreeMap, BTreeSet};

/// The checks of one test: how many there were, and the first that failed.
#[derive(Default)]
struct Checks {
    done: u64,
    failed: Option<String>,
}

impl Checks {
    fn check(&mut self, holds: bool, text: impl FnOnce() -> String) {
        self.done += 1;
        if !holds && self.failed.is_none() {
            self.failed = Some(text());
        }
    }
}

/// Runs all tests, prints a line for each, and answers whether all passed.
pub fn run() -> bool {
    let tests: [(&str, fn(&mut Checks)); 13] = [
        ("texts of models and their faults", model_examples),
        ("texts at the limits", model_limits),
        ("a text is accepted exactly if it is the text of its model", model_texts),
        ("texts of formulas and their faults", formula_examples),
        ("beginnings of formulas, against a stack of what is to come", formula_beginnings),
        ("records spell the text again", formula_records),
        ("rounds, against the values of all adversaries", rounds_of_adversaries),
        ("ends, against the tallies of all adversaries", ends_of_adversaries),
        ("untils without steps, against marks and lists of adversaries", untils_of_adversaries),
        ("verdicts, against the sets of states where formulas hold", verdicts_of_formulas),
        ("calls on trials", trial_examples),
        ("lists of limits", list_examples),
        ("cases of every kind arise", kinds_of_cases),
    ];
    let mut passed = true;
    for (name, test) in tests {
        let mut checks = Checks::default();
        test(&mut checks);
        match checks.failed {
            None => println!("{:8} checks passed: {}", checks.done, name),
            Some(text) => {
                passed = false;
                println!("FAILED: {}: {}", name, text);
            }
        }
    }
    passed
}

/// A model's text with `/` for the end of a line and a blank for a tab.
fn spelled(text: &str) -> Vec<u8> {
    text.replace(" / ", "\n").replace(" /", "\n").replace('/', "\n").replace(' ', "\t").into_bytes()
}

/// Texts of models, and what each gives: a number, a line, and for a field its number and its lawful length.
const MODEL_EXAMPLES: [(&str, &str); 29] = [
    ("", "2@0"),
    ("junk", "2@0"),
    ("/", "3@1"),
    ("mdp 1 1 / s - / c / b 0 1 / end /", "ok"),
    ("mdp 1 1 / s - / c / b 0 1 / end //", "3@6"),
    ("mdp 1 1\r/", "5@1 2 1"),
    ("c /", "3@1"),
    ("mdp 1 1 / s - / c\t/", "4@3"),
    ("mdp 0 x/", "5@1 2 0"),
    ("mdp 1 2 / s - / c / b 0 1 / s ba/", "7@5 1 1"),
    ("mdp 1 2 / s - / c / b 0 1 / zz/", "3@5"),
    ("mdp 1 2 / s - / c / b 0 1 / c 1/", "4@5"),
    ("mdp 1 2 / s - / c / b 0 1 / s a/", "9@5"),
    ("mdp 1 2 / s - / c / b 0 1/", "14@0"),
    ("mdp 2 2 / s - / c / b 0 2 / b 1 2 / b 1 2/", "8@6"),
    ("mdp 2 1 / s - / c / b 0 1 / end / x/", "13@0"),
    ("mdp 2 2 / s - / c / b 0 1 / end/", "9@5"),
    ("mdp 1 1 / s - / c / b 0 1 / s -/", "10@5"),
    ("mdp 1 1000000 / s - / c / b 0 1000000 / end/", "ok"),
    ("mdp 1 1000001/", "6@1"),
    ("mdp 08 1/", "5@1 1 1"),
    ("mdp 12345678 1/", "5@1 1 7"),
    ("mdp 1 1 / s - / c / b 9 0/", "6@4"),
    ("mdp 1 1 / s aa/", "7@2 1 1"),
    ("mdp 1 1 / s -a/", "7@2 1 1"),
    ("mdp 1 1 / s a-/", "7@2 1 1"),
    ("mdp 1 1 / s q/", "7@2 1 0"),
    ("mdp 1 1 / s /", "4@2"),
    ("mdp 1 1 / s\t/", "7@2 1 0"),
];

fn model_examples(checks: &mut Checks) {
    for (text, wanted) in MODEL_EXAMPLES {
        let told = match load(&spelled(text)) {
            Ok(_) => "ok".to_string(),
            Err(fault) => {
                let place = fault.field.map_or(String::new(), |(field, length)| format!(" {} {}", field, length));
                format!("{}@{}{}", fault.number, fault.line, place)
            }
        };
        checks.check(told == wanted, || format!("{:?} gives {} and not {}", text, told, wanted));
    }
}

/// A model of three states, the first with all choices but two; each choice has two branches, but so many more.
fn crowded(choices: usize, more: usize) -> Model {
    let row = |more: usize| if more == 1 { vec![(0, 1), (1, 1), (2, 1)] } else { vec![(0, 1), (1, 2)] };
    let mut model = Model { denominator: 3, states: Vec::new() };
    for rows in [choices - 2, 1, 1] {
        model.states.push(State { labels: BTreeSet::new(), choices: vec![row(0); rows] });
    }
    model.states[2].choices[0] = row(more);
    model
}

fn model_limits(checks: &mut Checks) {
    let mut random = Random::new(8);
    let of_length = |random: &mut Random, bytes: usize| {
        let mut model = models::wide(random);
        models::lengthen(&mut model, bytes);
        model
    };
    let rungs = |states: usize| {
        let state = |s| State { labels: BTreeSet::new(), choices: vec![vec![(s, 1)]] };
        Model { denominator: 1, states: (0..states).map(state).collect() }
    };
    let examples = [
        (crowded(2048, 0), None),
        (crowded(2049, 0), Some((11, 6149))),
        (crowded(2048, 1), Some((12, 6149))),
        (of_length(&mut random, 65_536), None),
        (of_length(&mut random, 65_537), Some((1, 0))),
        (rungs(512), None),
        (rungs(513), Some((6, 1))),
    ];
    for (model, wanted) in examples {
        let told = load(&model.text()).err().map(|fault| (fault.number, fault.line));
        checks.check(told == wanted, || format!("a text of {} bytes gives {:?} and not {:?}", model.text().len(), told, wanted));
    }
}

fn model_texts(checks: &mut Checks) {
    let mut random = Random::new(1);
    for index in 0..3000 {
        let size = random.pick(&[Size::Tiny, Size::Small, Size::Middle, Size::Large]);
        let size = if index % 20 == 0 { size } else { Size::Tiny };
        let model = models::model(&mut random, size);
        let text = model.text();
        let short = text.len() <= 65_536;
        checks.check(load(&text).ok() == short.then(|| model.clone()), || format!("lawful text {} is refused", index));
        let damaged = models::damaged(&mut random, text);
        if let Ok(model) = load(&damaged) {
            checks.check(model.text() == damaged, || format!("damaged text {} is accepted", index));
        }
    }
}

/// Texts of formulas, how many records are lent, and what each gives: how many records, or a number and a place.
const FORMULA_EXAMPLES: [(&str, usize, &str); 29] = [
    ("P>9999999999[", 64, "21:13"),
    ("P>12345678901[Xa]", 64, "21:12"),
    ("P>05[Xa]", 64, "21:3"),
    ("P>0[aU<=00b]", 64, "21:9"),
    ("P>0[aU<5b]", 64, "21:7"),
    ("P=1", 64, "21:1"),
    ("truea", 64, "21:4"),
    ("aa", 64, "21:1"),
    ("aUb", 64, "21:1"),
    ("Xa", 64, "21:0"),
    ("P>=5[a", 64, "21:6"),
    ("tru", 64, "21:3"),
    ("P>", 64, "21:2"),
    ("(a&b", 3, "21:4"),
    ("P>2000000000[Xa", 64, "21:15"),
    ("P>2000000000[XP>3000000000[Xa]]", 64, "22:2"),
    ("P>4294967296[Xa]", 64, "22:2"),
    ("P>0[aU<=10000b]", 64, "3"),
    ("P>0[aU<=10001b]", 64, "22:8"),
    ("a", 1, "1"),
    ("a", 0, "24:0"),
    ("(a&a)", 2, "24:0"),
    ("P>1[aUb]", 2, "24:0"),
    ("P>5[aUb]", 64, "25:0"),
    ("P<0[aUb]", 64, "25:0"),
    ("P>=0[aUb]", 64, "25:0"),
    ("P>1[aUP>2[aUb]]", 64, "25:0"),
    ("P>0[P>2[aUb]Ua]", 64, "25:4"),
    ("P>5[XP>5[aUb]]", 64, "25:5"),
];

fn formula_examples(checks: &mut Checks) {
    let deep = |count: usize| "P>0[X".repeat(count) + "a" + &"]".repeat(count);
    let long = [
        (String::new(), 64, "20:0"),
        ("a".repeat(1025), 64, "20:0"),
        ("!".repeat(1024), 64, "21:1024"),
        ("!".repeat(40), 64, "21:40"),
        (deep(31), 64, "32"),
        (deep(32), 64, "23:0"),
    ];
    let examples = FORMULA_EXAMPLES.map(|(text, lent, wanted)| (text.to_string(), lent, wanted));
    for (text, lent, wanted) in examples.into_iter().chain(long) {
        let told = match read(text.as_bytes(), lent) {
            Ok(records) => records.len().to_string(),
            Err(fault) => format!("{}:{}", fault.number, fault.place),
        };
        checks.check(told == wanted, || format!("{} gives {} and not {}", text, told, wanted));
    }
}

/// How many bytes of a text a stack of what is to come can take, and what is then left on it, the next on top.
fn by_stack(text: &[u8]) -> (usize, Vec<char>) {
    let mut stack = vec!['F'];
    let mut place = 0;
    while let Some(top) = stack.pop() {
        let byte = text.get(place).copied().unwrap_or(0) as char;
        let more = match (top, byte) {
            ('F', 't') => "eur",
            ('F', 'a'..='p') => "",
            ('F', '!') => "F",
            ('F', '(') => ")F&F",
            ('F', 'P') => "]Q[NC",
            ('Q', 'X') => "F",
            ('Q', _) if byte != '\0' => {
                stack.extend(['R', 'U', 'F']);
                continue;
            }
            ('R', '<') => "FN=",
            ('R', _) if byte != '\0' => {
                stack.push('F');
                continue;
            }
            ('C', '<') | ('C', '>') => "E",
            ('E', '=') => "",
            ('E', _) if byte != '\0' => continue,
            ('N', '0') => "",
            ('N', '1'..='9') => "DDDDDDDDD",
            ('D', '0'..='9') => "",
            ('D', _) if byte != '\0' => continue,
            _ if top == byte && !"FQRCEND".contains(top) => "",
            _ => {
                stack.push(top);
                return (place, stack);
            }
        };
        stack.extend(more.chars());
        place += 1;
    }
    (place, stack)
}

/// A beginning, with the shortest text behind it that makes it whole.
fn completed(text: &[u8], stack: &[char]) -> Vec<u8> {
    let ends = |top: &char| match top {
        'F' => "a".to_string(),
        'Q' => "Xa".to_string(),
        'R' => "a".to_string(),
        'C' => ">".to_string(),
        'N' => "0".to_string(),
        'E' | 'D' => String::new(),
        byte => byte.to_string(),
    };
    let rest: String = stack.iter().rev().map(ends).collect();
    [text, rest.as_bytes()].concat()
}

fn formula_beginnings(checks: &mut Checks) {
    let mut random = Random::new(2);
    for _ in 0..6000 {
        let parts = 1 + random.below(14);
        let lawful = formulas::formula(&mut random, None, parts);
        checks.check(recognise(lawful.as_bytes()).whole, || format!("{} is no formula", lawful));
        let text = formulas::damaged(&mut random, &lawful);
        let reading = recognise(&text);
        let (longest, stack) = by_stack(&text);
        let words = || String::from_utf8_lossy(&text).into_owned();
        checks.check(reading.longest == longest, || format!("{} begins a formula to {} and not {}", words(), longest, reading.longest));
        let optional = stack.iter().all(|top| "ED".contains(*top));
        checks.check(reading.whole == (longest == text.len() && optional), || format!("{}: whole {}", words(), reading.whole));
        let whole = completed(&text[..longest], &stack);
        checks.check(recognise(&whole).whole, || format!("{}: {} is no formula", words(), String::from_utf8_lossy(&whole)));
    }
}

/// The text of a record's formula.
fn text_of(records: &[Record], i: usize) -> String {
    let record = records[i];
    let part = |i: usize| text_of(records, i);
    let head = || format!("P{}{}", ["<", "<=", ">", ">="][record.comparison as usize - 1], record.number);
    match record.kind {
        0 => "true".to_string(),
        1 => ((b'a' + record.number as u8) as char).to_string(),
        2 => format!("!{}", part(record.first)),
        3 => format!("({}&{})", part(record.first), part(record.second)),
        4 => format!("{}[X{}]", head(), part(record.first)),
        5 => format!("{}[{}U<={}{}]", head(), part(record.first), record.steps, part(record.second)),
        _ => format!("{}[{}U{}]", head(), part(record.first), part(record.second)),
    }
}

/// How many records a record's formula has, where all of the left part come first, then the right, then the whole.
fn checked_size(records: &[Record], i: usize) -> Option<usize> {
    let record = records[i];
    let unused = record.second == 0 && (record.kind > 1 || record.first == 0);
    match record.kind {
        0 | 1 => unused.then_some(1),
        2 | 4 => (unused && record.first + 1 == i).then(|| checked_size(records, i - 1)).flatten().map(|size| size + 1),
        _ => {
            let right = (record.second + 1 == i).then(|| checked_size(records, i - 1)).flatten()?;
            let left = (record.first + 1 + right == i).then(|| checked_size(records, record.first)).flatten()?;
            Some(left + right + 1)
        }
    }
}

fn formula_records(checks: &mut Checks) {
    let mut random = Random::new(3);
    for _ in 0..6000 {
        let parts = 1 + random.below(30);
        let text = formulas::formula(&mut random, None, parts);
        if let Ok(records) = read(text.as_bytes(), 64) {
            let last = records.len() - 1;
            checks.check(text_of(&records, last) == text, || format!("{} is read as {}", text, text_of(&records, last)));
            checks.check(checked_size(&records, last) == Some(last + 1), || format!("{}: order or fields of {:?}", text, records));
        }
    }
}

/// The values of every adversary with so many rounds left.
fn values_of_adversaries(model: &Model, rule: Rule, s: usize, left: u64, start: &[u64]) -> BTreeSet<u64> {
    if left == 0 {
        return BTreeSet::from([start[s]]);
    }
    let mut values = BTreeSet::new();
    for row in &model.states[s].choices {
        let mut sums = BTreeSet::from([0u64]);
        for &(target, weight) in row {
            let later = values_of_adversaries(model, rule, target, left - 1, start);
            sums = sums.iter().flat_map(|sum| later.iter().map(move |value| sum + weight * value)).collect();
        }
        values.extend(sums.iter().map(|&sum| match rule {
            Rule::Down => sum / model.denominator,
            Rule::Up => sum.div_ceil(model.denominator),
            Rule::Marks => sum.min(1),
        }));
    }
    values
}

fn rounds_of_adversaries(checks: &mut Checks) {
    let mut random = Random::new(4);
    for _ in 0..3000 {
        let model = models::model(&mut random, Size::Tiny);
        let rule = random.pick(&[Rule::Down, Rule::Up, Rule::Marks]);
        let most = if rule == Rule::Marks { 1 } else { random.pick(&[10, WHOLE]) };
        let start: Vec<u64> = (0..model.size()).map(|_| random.within(0, most)).collect();
        let count = random.within(1, 3);
        let greater = random.percent(50);
        let (now, before) = rounds(&model, rule, greater, count, &start);
        for s in 0..model.size() {
            for (list, left) in [(&now, count), (before.as_ref().unwrap(), count - 1)] {
                let values = values_of_adversaries(&model, rule, s, left, &start);
                let wanted = if greater { values.last() } else { values.first() };
                checks.check(wanted == Some(&list[s]), || format!("{:?} {} after {} rounds", rule, greater, left));
            }
        }
    }
}

fn some_set(random: &mut Random, states: usize, share: usize) -> Vec<bool> {
    (0..states).map(|_| random.percent(share)).collect()
}

fn ends_of_adversaries(checks: &mut Checks) {
    let mut random = Random::new(5);
    for _ in 0..4000 {
        let model = models::model(&mut random, Size::Tiny);
        let (left, right) = (some_set(&mut random, model.size(), 80), some_set(&mut random, model.size(), 30));
        let steps = random.below(4);
        let extremes = exact::extremes(&model, &left, &right, steps as u32);
        let whole = u128::from(model.denominator).pow(steps as u32);
        let end = |best, up| until_end(&model, &left, &right, best, steps as u64, up);
        let ends = [(end(false, false), end(false, true)), (end(true, false), end(true, true))];
        for s in 0..model.size() {
            if exact::count(&model, s, steps) <= 2000 {
                let runs = exact::adversaries(&model, vec![(vec![s], 1)], steps);
                let tallies: Vec<u128> = runs.iter().map(|runs| exact::tally(runs, &left, &right)).collect();
                let (least, most) = (*tallies.iter().min().unwrap(), *tallies.iter().max().unwrap());
                checks.check((least, most) == extremes[s], || format!("tallies {} to {}, not {:?}", least, most, extremes[s]));
            }
            for (value, (lower, upper)) in [extremes[s].0, extremes[s].1].iter().zip(&ends) {
                let value = value * u128::from(WHOLE);
                let between = u128::from(lower[s]) * whole <= value && value <= u128::from(upper[s]) * whole;
                checks.check(between && upper[s] - lower[s] <= steps as u64, || format!("ends {} {}", lower[s], upper[s]));
            }
        }
    }
}

/// Where the until holds by rounds of marks over the model with right and the states outside left held.
fn by_marks(model: &Model, left: &[bool], right: &[bool]) -> [Vec<bool>; 3] {
    let mut held = model.clone();
    for s in (0..model.size()).filter(|&s| right[s] || !left[s]) {
        held.hold(s as u64).unwrap();
    }
    let count = model.size() as u64 + 1;
    let marks: Vec<u64> = right.iter().map(|&inside| u64::from(inside)).collect();
    let positive = rounds(&held, Rule::Marks, false, count, &marks).0;
    let reached = rounds(&held, Rule::Marks, true, count, &marks).0;
    let missed: Vec<u64> = positive.iter().map(|&mark| 1 - mark).collect();
    let unsure = rounds(&held, Rule::Marks, true, count, &missed).0;
    let set = |marks: Vec<u64>, wanted: u64| marks.into_iter().map(|mark| mark == wanted).collect();
    [set(positive, 1), set(reached, 0), set(unsure, 0)]
}

fn untils_of_adversaries(checks: &mut Checks) {
    let mut random = Random::new(6);
    for index in 0..6000 {
        let size = if index % 10 == 0 { Size::Middle } else if index % 3 == 0 { Size::Small } else { Size::Tiny };
        let model = models::model(&mut random, size);
        let shares = (random.pick(&[50, 80, 100]), random.pick(&[10, 30, 60]));
        let (left, right) = (some_set(&mut random, model.size(), shares.0), some_set(&mut random, model.size(), shares.1));
        let found = [untils::positive(&model, &left, &right), untils::never(&model, &left, &right), untils::certain(&model, &left, &right)];
        checks.check(found == by_marks(&model, &left, &right), || format!("marks of model {}", index));
        let listed = model.states.iter().fold(1usize, |product, state| product.saturating_mul(state.choices.len()));
        if matches!(size, Size::Middle) || listed > 500 || model.size() > 4 && model.denominator > 10 || model.denominator > 100 {
            continue;
        }
        let mut wanted = [vec![true; model.size()], vec![true; model.size()], vec![true; model.size()]];
        for choices in exact::memoryless(&model) {
            for (s, &probability) in exact::probability(&model, &choices, &left, &right).iter().enumerate() {
                wanted[0][s] &= probability > 0.0;
                wanted[1][s] &= probability == 0.0;
                wanted[2][s] &= probability > 1.0 - 1e-5;
            }
        }
        checks.check(found == wanted, || format!("adversaries of model {}\n{}", index, String::from_utf8_lossy(&model.text())));
        if matches!(size, Size::Tiny) {
            let extremes = exact::extremes(&model, &left, &right, model.size() as u32);
            let positive: Vec<bool> = extremes.iter().map(|pair| pair.0 > 0).collect();
            let never: Vec<bool> = extremes.iter().map(|pair| pair.1 == 0).collect();
            checks.check(found[0] == positive && found[1] == never, || format!("tallies of model {}", index));
        }
    }
}

/// Has the formula steps that are too many to be multiplied out?
fn is_long(records: &[Record]) -> bool {
    records.iter().any(|record| record.steps > 20)
}

fn verdicts_of_formulas(checks: &mut Checks) {
    let mut random = Random::new(7);
    let mut told = [0u64; 3];
    for _ in 0..8000 {
        let model = models::model(&mut random, Size::Tiny);
        let parts = 1 + random.below(9);
        let text = formulas::formula(&mut random, Some(&model), parts);
        let judged = match judge(&model, text.as_bytes(), Sizes::ample(model.size())) {
            Ok(judged) if !is_long(&judged.records) => judged,
            _ => continue,
        };
        let sets = exact::sets(&model, &judged.records);
        let words = |s: usize| format!("{} at {} of\n{}", text, s, String::from_utf8_lossy(&model.text()));
        for (i, verdicts) in judged.verdicts.iter().enumerate() {
            let record = judged.records[i];
            let decided = |part: usize| !judged.verdicts[part].contains(&UNDECIDED);
            let over_decided = record.kind < 2 || decided(record.first) && (matches!(record.kind, 2 | 4) || decided(record.second));
            for (s, &verdict) in verdicts.iter().enumerate() {
                told[verdict as usize] += 1;
                checks.check(verdict != YES || sets[i][s], || format!("a yes fails: record {} of {}", i, words(s)));
                checks.check(verdict != NO || !sets[i][s], || format!("a no holds: record {} of {}", i, words(s)));
                if verdict == UNDECIDED && over_decided {
                    checks.check(is_near(&model, &record, &sets, s), || format!("record {} is far: {}", i, words(s)));
                }
            }
        }
    }
    checks.check(told.iter().all(|&count| count > 100), || format!("verdicts were told {:?} times", told));
}

/// Does the state's value, its worst for `>` and `>=` and else its best, lie within as many units of the bound as there are steps?
fn is_near(model: &Model, record: &Record, sets: &[Vec<bool>], s: usize) -> bool {
    let (extremes, steps) = match record.kind {
        4 => (exact::next_extremes(model, &sets[record.first]), 1),
        5 => (exact::extremes(model, &sets[record.first], &sets[record.second], record.steps as u32), record.steps as u32),
        _ => return false,
    };
    let whole = u128::from(model.denominator).pow(steps);
    let value = if record.comparison >= 3 { extremes[s].0 } else { extremes[s].1 };
    (value * u128::from(WHOLE)).abs_diff(u128::from(record.number) * whole) <= u128::from(steps) * whole
}

const TWO: &str = "mdp 2 3 / s - / c / b 0 2 / b 1 1 / s a / c / b 1 3 / end/";
const THREE: &str = "mdp 3 4 / s - / c / b 0 1 / b 1 3 / c / b 1 2 / b 2 2 / s a / c / b 1 4 / s b / c / b 2 4 / end/";

/// A model, calls on a trial over it, and their answers.
const TRIAL_EXAMPLES: [(&str, &str, &str); 9] = [
    (THREE, "start best 111 010,ends 0,advance 1,ends 0,advance 1,ends 0",
        "ok,ends 0 0 after 0,ok,ends 750000000 750000000 after 1,ok,ends 937500000 937500000 after 2"),
    (TWO, "start best 11 01,advance 1,ends 0,advance 1,ends 0",
        "ok,ok,ends 333333333 333333334 after 1,ok,ends 555555555 555555556 after 2"),
    (TWO, "start worst 11 01,advance 1,verdict 0 >= 333333333,verdict 0 >= 333333334,verdict 0 > 333333334",
        "ok,ok,verdict yes 333333333 333333334 after 1,verdict undecided 333333333 333333334 after 1,verdict no 333333333 333333334 after 1"),
    ("ladder:2:4:3", "start best 111 001,advance 2,ends 0,start worst 111 001,advance 2,ends 0",
        "ok,ok,ends 562500000 562500000 after 2,ok,ok,ends 0 0 after 2"),
    (TWO, "advance 0,ends 9,verdict 9 < 2000000000,start best 1 01,start best 12 -,start best 12 01,start best 11 01,advance 100001",
        "refused 32,refused 32,refused 32,refused 30,refused 30,refused 31,ok,refused 33"),
    (TWO, "start best 11 01,advance 7,start best 21 01,ends 1,verdict 2 >= 1000000001,verdict 0 >= 1000000001,verdict 0 >= 5,advance 99994,advance 99993,advance 1",
        "ok,ok,refused 31,ends 1000000000 1000000000 after 7,refused 34,refused 35,refused 36,refused 33,ok,refused 33"),
    (THREE, "hold 3,hold 0,start best 111 010,advance 5,ends 0", "refused 43,ok,ok,ok,ends 0 0 after 5"),
    (THREE, "start best 100 010,advance 1,judge (a&,ends 1,judge true,ends 1",
        "ok,ok,refused 21 place 3,ends 1000000000 1000000000 after 1,judge 1 records,0 .. yes 3 undecided 0: 111,out 111,refused 32"),
    (THREE, "judge P>=1000000000[trueUa],judge P>0[trueUa],judge P<=0[trueUa]",
        "judge 3 records,0 .. yes 3 undecided 0: 111,1 .. yes 1 undecided 0: 010,2 .. yes 1 undecided 0: 010,out 010,\
         judge 3 records,0 .. yes 3 undecided 0: 111,1 .. yes 1 undecided 0: 010,2 .. yes 2 undecided 0: 110,out 110,\
         judge 3 records,0 .. yes 3 undecided 0: 111,1 .. yes 1 undecided 0: 010,2 .. yes 1 undecided 0: 001,out 001"),
];

fn trial_examples(checks: &mut Checks) {
    for (model, calls, wanted) in TRIAL_EXAMPLES {
        let source = if model.starts_with("ladder:") { Source::Ladder(model.to_string()) } else { Source::Text(spelled(model)) };
        let calls: Vec<Call> = calls.split(',').map(parsed).collect();
        let text = |line: &Line| match line {
            Line::Begins(head) => head.trim_end_matches(':').to_string(),
            line => line.text(),
        };
        let told: Vec<String> = play_trial(&source, &calls).lines.iter().map(text).collect();
        checks.check(told.join(",") == wanted, || format!("{} and not {}", told.join(","), wanted));
    }
}

/// A call from its words.
fn parsed(text: &str) -> Call {
    let words: Vec<&str> = text.split(' ').collect();
    let number = |i: usize| words[i].parse().unwrap();
    let marks = |i: usize| words[i].bytes().filter(|&byte| byte != b'-').map(|byte| byte - b'0').collect();
    match words[0] {
        "hold" => Call::Hold(number(1)),
        "start" => Call::Start { best: words[1] == "best", left: marks(2), right: marks(3) },
        "advance" => Call::Advance(number(1)),
        "ends" => Call::Ends(number(1)),
        "verdict" => {
            let comparison = ["<", "<=", ">", ">="].iter().position(|word| *word == words[2]).unwrap() as u8 + 1;
            Call::Verdict { state: number(1), comparison, bound: number(3) }
        }
        _ => Call::Judge { text: words[1].as_bytes().to_vec(), sizes: None },
    }
}

/// Lists of limits on a model of two states, of which state 0 goes to state 1 with a third, or stays: the text, what is printed, and
/// what is on standard error.
const LIST_EXAMPLES: [(&str, &str, &str); 5] = [
    ("", "summary/      0  formulas/      0  hold at every state/      0  fail somewhere/      0  undecided somewhere and fail nowhere/      \
         0  refused/", ""),
    ("#a\tb\r/#/true", "#a\tb?/#/true/  state  verdict/      0  yes/      1  yes/  yes 2, no 0, undecided 0//summary/      1  formulas/      \
         1  hold at every state/      0  fail somewhere/      0  undecided somewhere and fail nowhere/      0  refused/", ""),
    ("P>=333333334[Xa]/", "P>=333333334[Xa]/  state  verdict         lower       upper/      0  undecided   333333333   333333334/      \
         1  yes        1000000000  1000000000/  yes 1, no 0, undecided 1//summary/      1  formulas/      0  hold at every state/      \
         0  fail somewhere/      1  undecided somewhere and fail nowhere/      0  refused/", ""),
    ("a //P>0[aU<=10001b]", "line 1: refused 21 place 1: ../a / ^//line 3: refused 22 place 8: ../P>0[aU<=10001b]/        ^//summary/      \
         2  formulas/      0  hold at every state/      0  fail somewhere/      0  undecided somewhere and fail nowhere/      2  refused/",
        "kavzhubo: formula 1 of 2/kavzhubo: formula 2 of 2/"),
    ("!a\r/a", "line 1: refused 21 place 2: ../!a?/  ^//a/  state  verdict/      0  no/      1  yes/  yes 1, no 1, undecided 0//summary/      \
         2  formulas/      0  hold at every state/      1  fail somewhere/      0  undecided somewhere and fail nowhere/      1  refused/",
        "kavzhubo: formula 1 of 2/kavzhubo: formula 2 of 2/"),
];

fn list_examples(checks: &mut Checks) {
    let model = Source::Text(spelled("mdp 2 3 / s - / c / b 0 2 / b 1 1 / s a / c / b 1 3 / end/"));
    for (list, wanted, error) in LIST_EXAMPLES {
        let expected = limits::check(&model, list.replace('/', "\n").as_bytes());
        let words = |line: String| match line.split_once(": no formula").or(line.split_once(": this number")) {
            Some((head, _)) => format!("{}: ..", head),
            None => line,
        };
        let told: String = expected.lines.iter().map(|line| words(line.text()) + "/").collect();
        let progress = String::from_utf8_lossy(&expected.error).replace('\n', "/");
        checks.check(told == wanted && progress == error, || format!("{} and {}, not {} and {}", told, progress, wanted, error));
        checks.check(expected.status == i32::from(wanted.contains("line 1")), || format!("{} has the status {}", list, expected.status));
    }
}

fn kinds_of_cases(checks: &mut Checks) {
    let mut kinds: BTreeMap<String, u64> = BTreeMap::new();
    for command in COMMANDS {
        for seed in 0..1500 {
            let case = case(&mut Random::new(seed), command);
            for kind in case.expected.kinds {
                *kinds.entry(format!("{} {}", command, kind)).or_default() += 1;
            }
        }
    }
    let mut wanted: Vec<String> = Vec::new();
    let refused = |head: &str, numbers: Vec<u32>| numbers.into_iter().map(move |n| format!("{} refused {}", head, n)).collect::<Vec<_>>();
    for command in ["show", "write"] {
        wanted.extend(refused(command, (1..=14).chain(40..=42).collect()));
        wanted.push(format!("{} wrong command line", command));
    }
    wanted.extend(refused("formula", (20..=25).collect()));
    wanted.extend(refused("rounds", (37..=39).collect()));
    wanted.extend(refused("trial hold", vec![43]));
    wanted.extend(refused("trial start", vec![30, 31]));
    wanted.extend(refused("trial advance", vec![32, 33]));
    wanted.extend(refused("trial ends", vec![32, 34]));
    wanted.extend(refused("trial verdict", vec![32, 34, 35, 36]));
    wanted.extend(refused("trial judge", (20..=27).collect()));
    wanted.extend(refused("check formula", (20..=25).collect()));
    let formulas = ["holds", "fails", "fails, some undecided", "undecided"].into_iter().flat_map(|word| {
        [format!("check formula {}", word), format!("check formula {}, with ends", word)]
    });
    wanted.extend(formulas);
    wanted.extend(["heading", "heading with odd bytes", "heading of more than 1024 bytes"].map(|kind| format!("check {}", kind)));
    wanted.extend(["", " empty", " without a formula", " without a last LF"].map(|kind| format!("check list{}", kind)));
    wanted.push("check wrong command line".to_string());
    let verdicts = ["yes", "no", "undecided"].map(|word| format!("trial verdict {}", word));
    wanted.extend(verdicts);
    wanted.extend(["show accepted", "write accepted", "formula accepted", "trial judge accepted", "trial judge accepted, some undecided"].map(String::from));
    for kind in wanted {
        checks.check(kinds.contains_key(&kind), || format!("no case of {} arose", kind));
    }
}
