//! Random cases: a command line of the program with its files, and what is expected of it.

use crate::answers::{self, Expected, Source};
use crate::formulas;
use crate::judge::Sizes;
use crate::limits;
use crate::lists;
use crate::model::{Model, WHOLE};
use crate::models::{self, Size};
use crate::random::Random;
use crate::rounds::Rule;
use crate::trial::{Call, Trial};

/// The commands that can be compared.
pub const COMMANDS: [&str; 6] = ["show", "write", "formula", "rounds", "trial", "check"];

pub struct Case {
    pub command: &'static str,
    pub model: Option<Source>,
    /// the words behind the model
    pub words: Vec<Vec<u8>>,
    /// a file that is named last, and its text
    pub file: Option<(&'static str, Vec<u8>)>,
    pub expected: Expected,
}

/// A random case of the command.
pub fn case(random: &mut Random, command: &'static str) -> Case {
    match command {
        "show" | "write" => text_case(random, command),
        "formula" => formula_case(random),
        "rounds" => rounds_case(random),
        "trial" => trial_case(random),
        _ => check_case(random),
    }
}

fn text_case(random: &mut Random, command: &'static str) -> Case {
    let source = any_source(random);
    let expected = if command == "show" { answers::show(&source) } else { answers::write(&source) };
    Case { command, model: Some(source), words: Vec::new(), file: None, expected }
}

/// A lawful text, a damaged one, or a ladder.
fn any_source(random: &mut Random) -> Source {
    match random.weighted(&[20, 55, 8, 17]) {
        0 => Source::Text(some_model(random, &[40, 40, 15, 5]).text()),
        1 => {
            let text = some_model(random, &[60, 38, 2, 0]).text();
            Source::Text(models::damaged(random, text))
        }
        2 => Source::Text(models::limit_model(random).text()),
        _ => Source::Ladder(ladder_word(random, 20)),
    }
}

fn some_model(random: &mut Random, weights: &[usize]) -> Model {
    let size = [Size::Tiny, Size::Small, Size::Middle, Size::Large][random.weighted(weights)];
    models::model(random, size)
}

/// A model on which values are rounded: a unit is no whole number of its parts.
fn rounding_model(random: &mut Random) -> Model {
    loop {
        let model = some_model(random, &[45, 43, 10, 2]);
        if WHOLE % model.denominator != 0 {
            return model;
        }
    }
}

/// The word of a ladder, so many times out of a hundred one that is refused or none.
fn ladder_word(random: &mut Random, wrong: usize) -> String {
    let most = random.pick(&[3, 10, 511]);
    let denominator = random.pick(&[1, 2, 3, 4, 10, 1000, 1_000_000]);
    let mut numbers = [random.within(1, most), denominator, random.within(1, denominator)].map(|n| n.to_string());
    if random.percent(wrong) {
        numbers[random.below(3)] = random.pick(&["0", "512", "511", "1000001", "9999999", "10000000", "", "01", "x"]).to_string();
    }
    format!("ladder:{}", numbers.join(":"))
}

/// A source that is lawful but for a few, and its model where it is.
fn lawful_source(random: &mut Random, weights: &[usize]) -> (Source, Option<Model>) {
    let source = match random.weighted(&[88, 9, 3]) {
        0 => Source::Text(some_model(random, weights).text()),
        1 => Source::Ladder(ladder_word(random, 5)),
        _ => {
            let text = some_model(random, &[1, 0, 0, 0]).text();
            Source::Text(models::damaged(random, text))
        }
    };
    with_model(source)
}

fn with_model(source: Source) -> (Source, Option<Model>) {
    let model = answers::model_of(&source).ok();
    (source, model)
}

fn formula_case(random: &mut Random) -> Case {
    let parts = 1 + random.pick(&[2, 6, 15, 70]);
    let parts = 1 + random.below(parts);
    let lawful = if random.percent(12) { formulas::limit_formula(random) } else { formulas::formula(random, None, parts) };
    let text = if random.percent(55) { formulas::damaged(random, &lawful) } else { lawful.into_bytes() };
    Case { command: "formula", model: None, expected: answers::formula(&text), words: vec![text], file: None }
}

fn rounds_case(random: &mut Random) -> Case {
    let (source, model) = lawful_source(random, &[45, 40, 12, 3]);
    let states = model.as_ref().map_or(1, |model| model.size());
    let small = model.as_ref().is_some_and(|model| model.branches() <= 60);
    let rule = random.pick(&[Rule::Down, Rule::Up, Rule::Marks]);
    let greater = random.percent(50);
    let count = match random.weighted(&[10, 60, 20, 6, 4]) {
        0 => 0,
        1 => random.within(1, 8),
        2 => random.within(1, 60),
        3 => if small { random.pick(&[1000, 99_999, 100_000]) } else { 100 },
        _ => random.pick(&[100_001, 9_999_999_999]),
    };
    let values = values(random, rule, states);
    let expected = answers::play_rounds(&source, rule, greater, count, &values);
    let list = values.iter().map(|value| value.to_string()).collect::<Vec<_>>().join(",");
    let rule = ["down", "up", "marks"][rule as usize];
    let words = [rule, if greater { "greater" } else { "lesser" }, &count.to_string(), &list];
    let words = words.iter().map(|word| word.as_bytes().to_vec()).collect();
    Case { command: "rounds", model: Some(source), words, file: None, expected }
}

/// Starting values; now and then too few, too many, or one above the whole.
fn values(random: &mut Random, rule: Rule, states: usize) -> Vec<u64> {
    let length = if random.percent(94) { states } else { (states + random.below(3)).max(2) - 1 };
    let mark = random.percent(30);
    let value = |random: &mut Random| match rule {
        Rule::Marks => random.within(0, 1),
        _ if mark => WHOLE * random.within(0, 1),
        _ => random.within(0, WHOLE),
    };
    let mut values: Vec<u64> = (0..length).map(|_| value(random)).collect();
    if rule != Rule::Marks && random.percent(4) {
        values[random.below(length)] = random.pick(&[WHOLE + 1, 4_294_967_297, 9_999_999_999]);
    }
    values
}

fn trial_case(random: &mut Random) -> Case {
    let (source, model) = lawful_source(random, &[45, 43, 10, 2]);
    let calls = match &model {
        Some(model) => calls(random, model),
        None => vec![Call::Advance(1)],
    };
    let expected = answers::play_trial(&source, &calls);
    let text = calls.iter().flat_map(call_text).collect();
    Case { command: "trial", model: Some(source), words: Vec::new(), file: Some(("calls", text)), expected }
}

/// A list of limits on a model; now and then there is no list at the path.
fn check_case(random: &mut Random) -> Case {
    let (source, model) = match random.weighted(&[50, 42, 8]) {
        0 => with_model(Source::Text(rounding_model(random).text())),
        1 => lawful_source(random, &[45, 43, 10, 2]),
        _ => with_model(any_source(random)),
    };
    let list = lists::list(random, model.as_ref());
    if model.is_some() && random.percent(1) {
        let words = vec![b"nowhere.limits".to_vec()];
        return Case { command: "check", model: Some(source), words, file: None, expected: answers::Expected::wrong() };
    }
    let expected = limits::check(&source, &list);
    Case { command: "check", model: Some(source), words: Vec::new(), file: Some(("limits", list)), expected }
}

/// Random calls on a trial over the model; they are played along, so that bounds come near the ends.
fn calls(random: &mut Random, model: &Model) -> Vec<Call> {
    let mut trial = Trial::new(model.clone());
    let mut list = Vec::new();
    let holds = if random.percent(20) { 1 + random.below(3) } else { 0 };
    for _ in 0..holds {
        list.push(Call::Hold(some_state(random, model)));
        trial.call(&list[list.len() - 1]);
    }
    for number in 0..1 + random.below(12) {
        let call = if number == 0 && random.percent(70) { start(random, model) } else { some_call(random, &trial) };
        let starts = matches!(call, Call::Start { .. });
        trial.call(&call);
        list.push(call);
        if starts && random.percent(60) {
            let call = Call::Advance(random.within(1, 6));
            trial.call(&call);
            list.push(call);
        }
    }
    list
}

fn some_call(random: &mut Random, trial: &Trial) -> Call {
    let model = &trial.model;
    let starts = if trial.standing().is_none() { 80 } else { 6 };
    match random.weighted(&[starts, 22, 22, 30, 14]) {
        0 => start(random, model),
        1 => Call::Advance(count(random, model)),
        2 => Call::Ends(some_state(random, model)),
        3 => verdict(random, trial),
        _ => some_judge(random, model),
    }
}

/// A state, now and then one that there is not.
fn some_state(random: &mut Random, model: &Model) -> u64 {
    let states = model.size() as u64;
    if random.percent(95) { random.within(0, states - 1) } else { random.pick(&[states, states + 1, 512, 9_999_999]) }
}

/// How many rounds, fewer the larger the model is.
fn count(random: &mut Random, model: &Model) -> u64 {
    match random.weighted(&[60, 20, 14, 6]) {
        0 => random.within(0, 4),
        1 => random.within(0, 40),
        2 if model.branches() <= 60 => random.pick(&[99_990, 100_000, 50_000, 1000]),
        2 => random.within(0, 100),
        _ => random.pick(&[100_001, 4_294_967_295, 9_999_999]),
    }
}

fn start(random: &mut Random, model: &Model) -> Call {
    let shares = (40 + random.below(61), random.pick(&[10, 30, 60]));
    let left = marks(random, model, shares.0);
    let right = marks(random, model, shares.1);
    Call::Start { best: random.percent(50), left, right }
}

/// A mark for each state; now and then too few or too many, or a byte that is no mark.
fn marks(random: &mut Random, model: &Model, share: usize) -> Vec<u8> {
    let length = if random.percent(96) { model.size() } else { model.size() + random.below(3) - 1 };
    let mut marks: Vec<u8> = (0..length).map(|_| u8::from(random.percent(share))).collect();
    if length > 0 && random.percent(3) {
        let place = random.below(length);
        marks[place] = random.within(2, 9) as u8;
    }
    marks
}

/// A question for a verdict, mostly one that meets the query, with a bound between or beside the ends of a state.
fn verdict(random: &mut Random, trial: &Trial) -> Call {
    let best = trial.standing().unwrap_or(false) != random.percent(5);
    let comparison = if best { random.pick(&[1, 2]) } else { random.pick(&[3, 4]) };
    let ends = trial.all_ends().unwrap_or_default();
    let apart: Vec<usize> = (0..ends.len()).filter(|&s| ends[s].0 < ends[s].1).collect();
    let state = if apart.is_empty() || random.percent(20) { some_state(random, &trial.model) } else { random.pick(&apart) as u64 };
    let bound = match ends.get(state as usize) {
        Some(&(lower, upper)) if random.percent(80) => match random.below(8) {
            0 => lower.saturating_sub(1),
            1 => upper + 1,
            _ => random.within(lower, upper),
        },
        _ => random.pick(&[0, 1, 333_333_333, 500_000_000, WHOLE - 1, WHOLE, WHOLE + 1, 4_294_967_296]),
    };
    Call::Verdict { state, comparison, bound }
}

fn some_judge(random: &mut Random, model: &Model) -> Call {
    let parts = 1 + random.below(if model.branches() <= 60 { 12 } else { 4 });
    let mut text = formulas::formula(random, Some(model), parts).into_bytes();
    match random.weighted(&[84, 10, 6]) {
        0 => {}
        1 => text = formulas::damaged(random, &String::from_utf8_lossy(&text)),
        _ if model.branches() <= 60 => text = formulas::limit_formula(random).into_bytes(),
        _ => {}
    }
    if text.is_empty() {
        text = b"a".to_vec();
    }
    let sizes = random.percent(30).then(|| some_sizes(random, model, &text));
    Call::Judge { text, sizes }
}

/// Sizes of buffers, about as large as the formula needs.
fn some_sizes(random: &mut Random, model: &Model, text: &[u8]) -> Sizes {
    let states = model.size();
    let needed = crate::formula::read(text, 64).map_or(3, |records| records.len());
    let mut sizes = Sizes { records: needed, scratch: needed * states, out: states };
    match random.below(8) {
        0 => sizes.records -= 1,
        1 => sizes.records += 1,
        2 => sizes.scratch -= 1,
        3 => sizes.scratch += 1 + random.below(20),
        4 => sizes.out -= 1,
        5 => sizes.out += 1,
        6 => sizes = Sizes { records: random.below(needed + 2), scratch: random.below(2 * needed * states), out: random.below(states + 2) },
        _ => {}
    }
    sizes
}

/// A call as it stands in a file.
fn call_text(call: &Call) -> Vec<u8> {
    let digits = |marks: &[u8]| match marks {
        [] => "-".to_string(),
        _ => marks.iter().map(|mark| mark.to_string()).collect(),
    };
    let mut text = match call {
        Call::Hold(state) => format!("hold {}", state).into_bytes(),
        Call::Start { best, left, right } => {
            format!("start {} {} {}", if *best { "best" } else { "worst" }, digits(left), digits(right)).into_bytes()
        }
        Call::Advance(count) => format!("advance {}", count).into_bytes(),
        Call::Ends(state) => format!("ends {}", state).into_bytes(),
        Call::Verdict { state, comparison, bound } => {
            let comparison = ["<", "<=", ">", ">="][*comparison as usize - 1];
            format!("verdict {} {} {}", state, comparison, bound).into_bytes()
        }
        Call::Judge { text, .. } => [b"judge ", &text[..]].concat(),
    };
    if let Call::Judge { sizes: Some(sizes), .. } = call {
        text.extend(format!(" {} {} {}", sizes.records, sizes.scratch, sizes.out).bytes());
    }
    text.push(b'\n');
    text
}
