//! The reading of a model's text. On each line every question is asked, and the least number of a "no" is told.

use crate::model::{Model, State};
use std::collections::BTreeSet;

/// Why a text is refused: the question, the line (0 for the whole text), and for a field its number and lawful length.
#[derive(Clone, Copy, Debug, PartialEq, Eq, PartialOrd, Ord)]
pub struct Fault {
    pub number: u32,
    pub line: usize,
    pub field: Option<(usize, usize)>,
}

/// What the lines before a line have told.
struct Reading {
    last: Vec<u8>,
    header: u64,
    model: Model,
}

/// The model of a text, or its fault.
pub fn load(text: &[u8]) -> Result<Model, Fault> {
    if text.len() > 65_536 {
        return Err(Fault { number: 1, line: 0, field: None });
    }
    if text.last() != Some(&b'\n') {
        return Err(Fault { number: 2, line: 0, field: None });
    }
    let mut reading = Reading { last: Vec::new(), header: 0, model: Model { denominator: 0, states: Vec::new() } };
    for (index, line) in text[..text.len() - 1].split(|&byte| byte == b'\n').enumerate() {
        let fields: Vec<&[u8]> = line.split(|&byte| byte == b'\t').collect();
        if let Some((number, field)) = reading.faults(&fields).into_iter().min() {
            let line = if number == 13 { 0 } else { index + 1 };
            return Err(Fault { number, line, field });
        }
        reading.take(&fields);
    }
    if reading.last != b"end" {
        return Err(Fault { number: 14, line: 0, field: None });
    }
    Ok(reading.model)
}

impl Reading {
    /// Each question that is answered no on the line, with the place in its field.
    fn faults(&self, fields: &[&[u8]]) -> Vec<(u32, Option<(usize, usize)>)> {
        let word = fields[0];
        let mut faults = Vec::new();
        if !may_follow(&self.last, word) {
            faults.push((3, None));
        }
        if field_count(word).is_some_and(|count| count != fields.len()) {
            faults.push((4, None));
        }
        faults.extend(self.field_faults(fields));
        faults.extend(self.number_faults(fields).into_iter().map(|number| (number, None)));
        faults.extend(self.count_faults(word).into_iter().map(|number| (number, None)));
        faults
    }

    /// Questions 5 and 7.
    fn field_faults(&self, fields: &[&[u8]]) -> Vec<(u32, Option<(usize, usize)>)> {
        let mut faults = Vec::new();
        for (index, field) in fields.iter().enumerate().skip(1) {
            if has_numbers(fields[0]) && number(field).is_none() {
                faults.push((5, Some((index, longest(field, begins_number)))));
            }
            if fields[0] == b"s" && (field.is_empty() || !begins_labels(field)) {
                faults.push((7, Some((index, longest(field, begins_labels)))));
            }
        }
        faults
    }

    /// Questions 6 and 8, of the numbers that are lawful.
    fn number_faults(&self, fields: &[&[u8]]) -> Vec<u32> {
        let numbers: Vec<Option<u64>> = fields[1..].iter().map(|field| number(field)).collect();
        let bad = |index: usize, least: u64, most: u64| {
            numbers.get(index).copied().flatten().is_some_and(|n| n < least || n > most)
        };
        let mut faults = Vec::new();
        if fields[0] == b"mdp" && (bad(0, 1, 512) || bad(1, 1, 1_000_000)) {
            faults.push(6);
        }
        if fields[0] == b"b" {
            let target = numbers.first().copied().flatten();
            if target.is_some_and(|t| t >= self.header) || bad(1, 1, self.model.denominator) {
                faults.push(6);
            }
            if self.last == b"b" && target.is_some_and(|t| t as usize <= self.row().last().unwrap().0) {
                faults.push(8);
            }
        }
        faults
    }

    /// Questions 9 to 13.
    fn count_faults(&self, word: &[u8]) -> Vec<u32> {
        let told = self.model.states.len() as u64;
        let closes = self.last == b"b" && [&b"c"[..], b"s", b"end"].contains(&word);
        let sum = |row: &[(usize, u64)]| row.iter().map(|branch| branch.1).sum::<u64>();
        let questions = [
            (9, closes && sum(self.row()) != self.model.denominator),
            (10, word == b"s" && told >= self.header),
            (11, word == b"c" && self.model.choices() >= 2048),
            (12, word == b"b" && self.model.branches() >= 4096),
            (13, word == b"end" && told != self.header),
        ];
        questions.into_iter().filter(|question| question.1).map(|question| question.0).collect()
    }

    /// The row that the last lines have told; asked only after a `b`.
    fn row(&self) -> &[(usize, u64)] {
        self.model.states.last().unwrap().choices.last().unwrap()
    }

    /// Takes a line that has no fault.
    fn take(&mut self, fields: &[&[u8]]) {
        let value = |index: usize| number(fields[index]).unwrap();
        let states = &mut self.model.states;
        match fields[0] {
            b"mdp" => {
                self.header = value(1);
                self.model.denominator = value(2);
            }
            b"s" => {
                let labels: BTreeSet<u8> = fields[1].iter().copied().filter(|&byte| byte != b'-').collect();
                states.push(State { labels, choices: Vec::new() });
            }
            b"c" => states.last_mut().unwrap().choices.push(Vec::new()),
            b"b" => {
                let row = states.last_mut().unwrap().choices.last_mut().unwrap();
                row.push((value(1) as usize, value(2)));
            }
            _ => {}
        }
        self.last = fields[0].to_vec();
    }
}

/// May the word come after the word before? The first line comes after the empty word.
fn may_follow(last: &[u8], word: &[u8]) -> bool {
    let next: &[&[u8]] = match last {
        b"" => &[b"mdp"],
        b"mdp" => &[b"s"],
        b"s" => &[b"c"],
        b"c" => &[b"b"],
        b"b" => &[b"b", b"c", b"s", b"end"],
        _ => &[],
    };
    next.contains(&word)
}

/// How many fields a line with the word has, the word included.
fn field_count(word: &[u8]) -> Option<usize> {
    match word {
        b"mdp" | b"b" => Some(3),
        b"s" => Some(2),
        b"c" | b"end" => Some(1),
        _ => None,
    }
}

/// Do numbers come after the word?
fn has_numbers(word: &[u8]) -> bool {
    word == b"mdp" || word == b"b"
}

/// The number that a field writes: 0, or one to seven digits that do not start with 0.
pub fn number(field: &[u8]) -> Option<u64> {
    if field.is_empty() || !begins_number(field) {
        return None;
    }
    std::str::from_utf8(field).ok()?.parse().ok()
}

/// Does some lawful number begin with these bytes?
fn begins_number(bytes: &[u8]) -> bool {
    let digits = bytes.iter().all(|byte| byte.is_ascii_digit());
    digits && bytes.len() <= 7 && (bytes.first() != Some(&b'0') || bytes.len() == 1)
}

/// Does some lawful set of labels begin with these bytes?
fn begins_labels(bytes: &[u8]) -> bool {
    let letters = bytes.iter().all(|byte| (b'a'..=b'p').contains(byte));
    bytes == b"-" || letters && bytes.windows(2).all(|pair| pair[0] < pair[1])
}

/// The length of the longest beginning of the field that passes the test.
fn longest(field: &[u8], test: fn(&[u8]) -> bool) -> usize {
    (0..=field.len()).rev().find(|&length| test(&field[..length])).unwrap_or(0)
}
