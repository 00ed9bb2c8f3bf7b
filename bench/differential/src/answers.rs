//! What the program has to print for a command, and whether what it printed is that. Words on a refusal are not compared.

use crate::formula::{read, Record};
use crate::judge::{Judged, NO, UNDECIDED, YES};
use crate::load::{load, number, Fault};
use crate::model::Model;
use crate::rounds::{refusal, rounds, Rule};
use crate::trial::{Answer, Call, Trial};

/// What a line has to be.
#[derive(Clone, Debug)]
pub enum Line {
    Whole(Vec<u8>),
    Begins(String),
    /// the word, and so many numbers
    Numbers(&'static str, usize),
    /// a judged record: its number, how many states are yes and undecided, and the verdicts
    Record(usize, usize, usize, String),
    /// any lines that are left
    Rest,
}

/// What is expected of a run of the program.
#[derive(Clone, Debug)]
pub struct Expected {
    pub status: i32,
    pub lines: Vec<Line>,
    /// is it a wrong command line, with a sentence on standard error and nothing else?
    pub mistake: bool,
    /// what is on standard error, unless it is a mistake
    pub error: Vec<u8>,
    /// what happens in the run, to be counted
    pub kinds: Vec<String>,
}

impl Expected {
    pub fn accepted(lines: Vec<Line>, kind: &str) -> Expected {
        Expected { status: 0, lines, mistake: false, error: Vec::new(), kinds: vec![kind.to_string()] }
    }

    fn refused(lines: Vec<Line>, kind: String) -> Expected {
        Expected { status: 1, lines, mistake: false, error: Vec::new(), kinds: vec![kind] }
    }

    /// What is expected of a wrong command line.
    pub fn wrong() -> Expected {
        let kinds = vec!["wrong command line".to_string()];
        Expected { status: 1, lines: Vec::new(), mistake: true, error: Vec::new(), kinds }
    }
}

/// Where a model comes from: a file's text, or a word that names a ladder.
#[derive(Clone, Debug)]
pub enum Source {
    Text(Vec<u8>),
    Ladder(String),
}

/// The model of a source, or what is expected of a command that names it.
pub fn model_of(source: &Source) -> Result<Model, Expected> {
    match source {
        Source::Text(text) => load(text).map_err(|fault| {
            Expected::refused(refused_text(&fault, text), format!("refused {}", fault.number))
        }),
        Source::Ladder(word) => {
            let numbers: Option<Vec<u64>> = word.split(':').skip(1).map(|field| number(field.as_bytes())).collect();
            match numbers.as_deref() {
                Some([rungs, denominator, weight]) => Model::ladder(*rungs, *denominator, *weight).map_err(|number| {
                    Expected::refused(vec![Line::Begins(format!("refused {}:", number))], format!("refused {}", number))
                }),
                _ => Err(Expected::wrong()),
            }
        }
    }
}

/// The lines of a refused text: number and place, and for a fault of a line that line with a caret under the place.
fn refused_text(fault: &Fault, text: &[u8]) -> Vec<Line> {
    let mut head = format!("refused {} line {}", fault.number, fault.line);
    if let Some((field, length)) = fault.field {
        head += &format!(" field {} length {}", field, length);
    }
    let mut lines = vec![Line::Begins(head + ":")];
    if fault.line > 0 {
        let line = text.split(|&byte| byte == b'\n').nth(fault.line - 1).unwrap();
        let place = fault.field.map_or(0, |(field, length)| {
            let before: usize = line.split(|&byte| byte == b'\t').take(field).map(|field| field.len() + 1).sum();
            before + length
        });
        lines.push(Line::Whole(shown(&line[..line.len().min(100)])));
        let mut caret: Vec<u8> = line[..place].iter().map(|&byte| if byte == b'\t' { byte } else { b' ' }).collect();
        caret.push(b'^');
        lines.push(Line::Whole(caret));
    }
    lines
}

/// The bytes as they are shown: `?` for each that is neither a tab nor printable ASCII.
pub fn shown(bytes: &[u8]) -> Vec<u8> {
    let one = |byte: &u8| if *byte == b'\t' || (b' '..=b'~').contains(byte) { *byte } else { b'?' };
    bytes.iter().map(one).collect()
}

pub fn whole(line: String) -> Line {
    Line::Whole(line.into_bytes())
}

/// What `show` has to print.
pub fn show(source: &Source) -> Expected {
    match model_of(source) {
        Ok(model) => Expected::accepted(model.listing().into_iter().map(whole).collect(), "accepted"),
        Err(expected) => expected,
    }
}

/// What `write` has to print.
pub fn write(source: &Source) -> Expected {
    match model_of(source) {
        Ok(model) => {
            let text = model.text();
            let lines = text[..text.len() - 1].split(|&byte| byte == b'\n').map(|line| Line::Whole(line.to_vec()));
            Expected::accepted(lines.collect(), "accepted")
        }
        Err(expected) => expected,
    }
}

/// What `formula` has to print.
pub fn formula(text: &[u8]) -> Expected {
    match read(text, 64) {
        Ok(records) => {
            let heading = "record\tkind\tfirst\tsecond\tcomparison\tnumber\tsteps".to_string();
            let mut lines = vec![whole(heading)];
            lines.extend(records.iter().enumerate().map(|(i, record)| whole(record_line(i, record))));
            Expected::accepted(lines, "accepted")
        }
        Err(fault) => {
            let head = format!("refused {} place {}:", fault.number, fault.place);
            Expected::refused(vec![Line::Begins(head), Line::Rest], format!("refused {}", fault.number))
        }
    }
}

fn record_line(i: usize, record: &Record) -> String {
    let Record { kind, first, second, comparison, number, steps } = record;
    format!("{}\t{}\t{}\t{}\t{}\t{}\t{}", i, kind, first, second, comparison, number, steps)
}

/// What `rounds` has to print. With no rounds the second list is not compared, since nothing says what it holds.
pub fn play_rounds(source: &Source, rule: Rule, greater: bool, count: u64, values: &[u64]) -> Expected {
    let model = match model_of(source) {
        Ok(model) => model,
        Err(expected) => return head_only(expected),
    };
    if let Some(number) = refusal(&model, rule, count, values) {
        return Expected::refused(vec![Line::Begins(format!("refused {}:", number)), Line::Rest], format!("refused {}", number));
    }
    let (now, before) = rounds(&model, rule, greater, count, values);
    let numbers = |values: Vec<u64>| values.iter().map(|value| value.to_string()).collect::<Vec<_>>().join(",");
    let second = match before {
        Some(before) => whole(format!("second {}", numbers(before))),
        None => Line::Numbers("second", model.size()),
    };
    let lines = vec![whole(format!("first {}", numbers(now))), second];
    Expected::accepted(lines, &format!("{:?} {}", rule, if greater { "greater" } else { "lesser" }).to_lowercase())
}

/// Of a refused model the first line alone.
fn head_only(mut expected: Expected) -> Expected {
    expected.lines.truncate(1);
    if !expected.mistake {
        expected.lines.push(Line::Rest);
    }
    expected.kinds = vec!["refused model".to_string()];
    expected
}

/// What `trial` has to print.
pub fn play_trial(source: &Source, calls: &[Call]) -> Expected {
    let mut trial = match model_of(source) {
        Ok(model) => Trial::new(model),
        Err(expected) => return head_only(expected),
    };
    let mut expected = Expected { status: 0, lines: Vec::new(), mistake: false, error: Vec::new(), kinds: Vec::new() };
    for call in calls {
        let answer = trial.call(call);
        expected.kinds.push(format!("{} {}", call_word(call), answer_kind(&answer)));
        expected.lines.extend(answer_lines(&answer));
    }
    expected
}

fn call_word(call: &Call) -> &'static str {
    match call {
        Call::Hold(_) => "hold",
        Call::Start { .. } => "start",
        Call::Advance(_) => "advance",
        Call::Ends(_) => "ends",
        Call::Verdict { .. } => "verdict",
        Call::Judge { .. } => "judge",
    }
}

fn answer_kind(answer: &Answer) -> String {
    match answer {
        Answer::Refused(number) => format!("refused {}", number),
        Answer::JudgeRefused(fault) => format!("refused {}", fault.number),
        Answer::Verdict { verdict, .. } => verdict_word(*verdict).to_string(),
        Answer::Judged(judged) if judged.verdicts.concat().contains(&UNDECIDED) => "accepted, some undecided".to_string(),
        _ => "accepted".to_string(),
    }
}

pub fn verdict_word(verdict: u8) -> &'static str {
    match verdict {
        NO => "no",
        YES => "yes",
        _ => "undecided",
    }
}

/// The lines of a call's answer.
fn answer_lines(answer: &Answer) -> Vec<Line> {
    match answer {
        Answer::Done => vec![whole("ok".to_string())],
        Answer::Refused(number) => vec![Line::Begins(format!("refused {}:", number))],
        Answer::JudgeRefused(fault) => vec![Line::Begins(format!("refused {} place {}:", fault.number, fault.place))],
        Answer::Ends { lower, upper, rounds } => vec![whole(format!("ends {} {} after {}", lower, upper, rounds))],
        Answer::Verdict { verdict, lower, upper, rounds } => {
            vec![whole(format!("verdict {} {} {} after {}", verdict_word(*verdict), lower, upper, rounds))]
        }
        Answer::Judged(judged) => judged_lines(judged),
    }
}

fn judged_lines(judged: &Judged) -> Vec<Line> {
    let digits = |verdicts: &[u8]| verdicts.iter().map(|verdict| verdict.to_string()).collect::<String>();
    let mut lines = vec![whole(format!("judge {} records", judged.records.len()))];
    for (i, verdicts) in judged.verdicts.iter().enumerate() {
        let count = |wanted: u8| verdicts.iter().filter(|&&verdict| verdict == wanted).count();
        lines.push(Line::Record(i, count(1), count(2), digits(verdicts)));
    }
    lines.push(whole(format!("out {}", digits(judged.verdicts.last().unwrap()))));
    lines
}

impl Line {
    /// Is the printed line as it has to be?
    fn fits(&self, printed: &[u8]) -> bool {
        match self {
            Line::Whole(line) => line == printed,
            Line::Begins(head) => printed.starts_with(head.as_bytes()),
            Line::Numbers(word, count) => {
                let text = String::from_utf8_lossy(printed);
                let numbers = text.strip_prefix(word).and_then(|rest| rest.strip_prefix(' '));
                numbers.is_some_and(|rest| {
                    rest.split(',').count() == *count && rest.split(',').all(|field| field.parse::<u64>().is_ok())
                })
            }
            Line::Record(i, yes, undecided, digits) => {
                let text = String::from_utf8_lossy(printed);
                let tail = format!(" yes {} undecided {}: {}", yes, undecided, digits);
                text.starts_with(&format!("{} ", i)) && text.ends_with(&tail)
            }
            Line::Rest => true,
        }
    }

    /// The line in words, for the file of what is expected.
    pub fn text(&self) -> String {
        match self {
            Line::Whole(line) => String::from_utf8_lossy(line).into_owned(),
            Line::Begins(head) => format!("{} ..", head),
            Line::Numbers(word, count) => format!("{} and {} numbers", word, count),
            Line::Record(i, yes, undecided, digits) => format!("{} .. yes {} undecided {}: {}", i, yes, undecided, digits),
            Line::Rest => "..".to_string(),
        }
    }
}

/// What is wrong with a run of the program, if anything is.
pub fn difference(expected: &Expected, status: Option<i32>, out: &[u8], error: &[u8]) -> Option<String> {
    if status != Some(expected.status) {
        return Some(format!("the exit status is {:?}, not {}", status, expected.status));
    }
    if expected.mistake && error.is_empty() {
        return Some("nothing is on standard error".to_string());
    }
    if !expected.mistake && error != expected.error {
        let texts = [error, &expected.error].map(|text| String::from_utf8_lossy(text).into_owned());
        return Some(format!("standard error is {:?} and not {:?}", texts[0], texts[1]));
    }
    let mut printed: Vec<&[u8]> = out.split(|&byte| byte == b'\n').collect();
    if printed.pop() != Some(&[]) {
        return Some("the last line has no end".to_string());
    }
    for (index, line) in expected.lines.iter().enumerate() {
        if matches!(line, Line::Rest) {
            return None;
        }
        match printed.get(index) {
            None => return Some(format!("line {} is missing: {}", index + 1, line.text())),
            Some(there) if !line.fits(there) => {
                let there = String::from_utf8_lossy(there).into_owned();
                return Some(format!("line {} is `{}` and not `{}`", index + 1, there, line.text()));
            }
            _ => {}
        }
    }
    let more = printed.len() > expected.lines.len();
    more.then(|| format!("there are {} lines, not {}", printed.len(), expected.lines.len()))
}
