//! Lists of limits: what stands in one, and what `check` has to print for it. All bytes are compared, the words on a refused formula too.

use crate::answers::{model_of, shown, verdict_word, whole, Expected, Line, Source};
use crate::formula::Fault;
use crate::judge::{judge, Judged, Sizes, NO, UNDECIDED, YES};

/// A line of a list.
enum Entry<'a> {
    Empty,
    Heading(&'a [u8]),
    Formula(&'a [u8]),
}

/// How a formula of a list comes out.
#[derive(Clone, Copy, PartialEq)]
enum Outcome {
    Holds,
    Fails,
    Undecided,
    Refused,
}

/// The lines of a list; what follows the last LF is one too.
fn entries(list: &[u8]) -> Vec<Entry<'_>> {
    list.split(|&byte| byte == b'\n').map(entry).collect()
}

fn entry(line: &[u8]) -> Entry<'_> {
    match line {
        [] => Entry::Empty,
        [b'#', ..] => Entry::Heading(line),
        _ => Entry::Formula(line),
    }
}

/// What `check` has to print.
pub fn check(source: &Source, list: &[u8]) -> Expected {
    let model = match model_of(source) {
        Ok(model) => model,
        Err(expected) => return expected,
    };
    let entries = entries(list);
    let formulas = entries.iter().filter(|entry| matches!(entry, Entry::Formula(_))).count();
    let mut expected = Expected::accepted(Vec::new(), list_kind(list, formulas));
    let mut outcomes = Vec::new();
    for (index, entry) in entries.iter().enumerate() {
        match entry {
            Entry::Empty => {}
            Entry::Heading(text) => {
                expected.kinds.push(heading_kind(text).to_string());
                expected.lines.push(Line::Whole(shown(text)));
            }
            Entry::Formula(text) => {
                let judged = judge(&model, text, Sizes::ample(model.size()));
                expected.kinds.push(formula_kind(&judged));
                expected.lines.extend(report(index + 1, text, &judged));
                outcomes.push(outcome(&judged));
                if formulas > 1 {
                    expected.error.extend(format!("kavzhubo: formula {} of {}\n", outcomes.len(), formulas).bytes());
                }
            }
        }
    }
    expected.lines.extend(summary(&outcomes));
    expected.status = i32::from(outcomes.contains(&Outcome::Refused));
    expected
}

/// The lines on a formula, the last of them empty.
fn report(number: usize, text: &[u8], judged: &Result<Judged, Fault>) -> Vec<Line> {
    let mut lines = match judged {
        Ok(judged) => table(text, judged),
        Err(fault) => refusal(number, text, fault),
    };
    lines.push(Line::Whole(Vec::new()));
    lines
}

/// The formula, a line for each state, and the counts of the verdicts.
fn table(text: &[u8], judged: &Judged) -> Vec<Line> {
    let verdicts = outermost(judged);
    let heading = match judged.ends {
        Some(_) => "  state  verdict         lower       upper",
        None => "  state  verdict",
    };
    let mut lines = vec![Line::Whole(text.to_vec()), whole(heading.to_string())];
    for (s, &verdict) in verdicts.iter().enumerate() {
        let word = verdict_word(verdict);
        lines.push(whole(match &judged.ends {
            Some(ends) => format!("{:7}  {:9}{:12}{:12}", s, word, ends[s].0, ends[s].1),
            None => format!("{:7}  {}", s, word),
        }));
    }
    let count = |wanted| verdicts.iter().filter(|&&verdict| verdict == wanted).count();
    lines.push(whole(format!("  yes {}, no {}, undecided {}", count(YES), count(NO), count(UNDECIDED))));
    lines
}

/// The verdicts of the whole formula.
fn outermost(judged: &Judged) -> &[u8] {
    &judged.verdicts[judged.verdicts.len() - 1]
}

/// The refusal of a line, the line, and a caret under the place; a line that is too long is not shown.
fn refusal(number: usize, text: &[u8], fault: &Fault) -> Vec<Line> {
    let mut lines = vec![whole(format!("line {}: refused {} place {}: {}", number, fault.number, fault.place, words(fault.number)))];
    if fault.number != 20 {
        lines.push(Line::Whole(shown(text)));
        lines.push(whole(" ".repeat(fault.place) + "^"));
    }
    lines
}

/// The words on what to mend.
fn words(number: u32) -> &'static str {
    match number {
        20 => "a formula has 1 to 1024 bytes; write one of that length",
        21 => {
            "no formula goes on like this; write true, a letter from a to p, !f, (f&g), or P, a comparison, a bound and [Xf], [fUg] or \
             [fU<=STEPSg], with no blanks"
        }
        22 => "this number is too large; a bound is at most 1000000000, and an until has at most 10000 steps",
        23 => "the formula is more than 32 deep; take levels out",
        24 => "there are more than 64 formulas in this one, or more than there are records; take some out",
        _ => {
            "an until without steps stands only under >0, <=0 or >=1000000000; change the bound, or give the until steps, as in U<=100"
        }
    }
}

fn outcome(judged: &Result<Judged, Fault>) -> Outcome {
    let Ok(judged) = judged else { return Outcome::Refused };
    let verdicts = outermost(judged);
    if verdicts.contains(&NO) {
        Outcome::Fails
    } else if verdicts.contains(&UNDECIDED) {
        Outcome::Undecided
    } else {
        Outcome::Holds
    }
}

/// The lines behind all reports.
fn summary(outcomes: &[Outcome]) -> Vec<Line> {
    let count = |wanted| outcomes.iter().filter(|&&outcome| outcome == wanted).count();
    let counts = [
        (outcomes.len(), "formulas"),
        (count(Outcome::Holds), "hold at every state"),
        (count(Outcome::Fails), "fail somewhere"),
        (count(Outcome::Undecided), "undecided somewhere and fail nowhere"),
        (count(Outcome::Refused), "refused"),
    ];
    let mut lines = vec![whole("summary".to_string())];
    lines.extend(counts.into_iter().map(|(count, words)| whole(format!("{:7}  {}", count, words))));
    lines
}

fn list_kind(list: &[u8], formulas: usize) -> &'static str {
    match (formulas, list.last()) {
        (0, None) => "list empty",
        (0, _) => "list without a formula",
        (_, Some(b'\n')) => "list",
        _ => "list without a last LF",
    }
}

fn heading_kind(text: &[u8]) -> &'static str {
    if shown(text) != text {
        "heading with odd bytes"
    } else if text.len() > 1024 {
        "heading of more than 1024 bytes"
    } else {
        "heading"
    }
}

fn formula_kind(answer: &Result<Judged, Fault>) -> String {
    let judged = match answer {
        Ok(judged) => judged,
        Err(fault) => return format!("formula refused {}", fault.number),
    };
    let word = match outcome(answer) {
        Outcome::Holds => "holds",
        Outcome::Fails if outermost(judged).contains(&UNDECIDED) => "fails, some undecided",
        Outcome::Fails => "fails",
        _ => "undecided",
    };
    format!("formula {}{}", word, if judged.ends.is_some() { ", with ends" } else { "" })
}
