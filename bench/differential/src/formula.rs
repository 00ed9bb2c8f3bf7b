//! The reading of formulas. Whether a text is one is found by sets of grammar items, a set for each place in the text (Earley's
//! method), with no recursion and no stack; the records are read off the places at which formulas begin and end.

use std::collections::HashSet;

/// A part of a rule of the grammar: bytes, or what the rules define.
#[derive(Clone, Copy, PartialEq, Eq)]
enum Symbol {
    Byte(u8),
    Letter,
    Digit,
    FirstDigit,
    Formula,
    Path,
    Comparison,
    Number,
}

/// A rule of the grammar: what it defines, and the parts of it.
struct Rule {
    whole: Symbol,
    parts: Vec<Symbol>,
}

/// A rule of which the first parts have been read, from a place on.
#[derive(Clone, Copy, PartialEq, Eq, Hash)]
struct Item {
    rule: usize,
    read: usize,
    from: usize,
}

/// What is known of a text: the length of its longest beginning that begins a formula, whether it is one, and where
/// formulas in it begin and end, in the order of their ends and, where they end together, the inner one first.
pub struct Reading {
    pub longest: usize,
    pub whole: bool,
    spans: Vec<(usize, usize)>,
}

/// What a formula's text is refused for, and where.
#[derive(Clone, Copy, Debug, PartialEq, Eq)]
pub struct Fault {
    pub number: u32,
    pub place: usize,
}

/// A state formula within a text; its fields are those of the checker's records.
#[derive(Clone, Copy, Debug, PartialEq, Eq)]
pub struct Record {
    pub kind: u8,
    pub first: usize,
    pub second: usize,
    pub comparison: u8,
    pub number: u64,
    pub steps: u64,
}

/// The rules: what `parts` spells is put together of bytes and of the names F, Q, C and N.
fn grammar() -> Vec<Rule> {
    let rule = |whole, parts: &str| Rule { whole, parts: parts.bytes().map(symbol).collect() };
    let mut rules = vec![
        rule(Symbol::Formula, "true"),
        rule(Symbol::Formula, "!F"),
        rule(Symbol::Formula, "(F&F)"),
        rule(Symbol::Formula, "PCN[Q]"),
        Rule { whole: Symbol::Formula, parts: vec![Symbol::Letter] },
        rule(Symbol::Path, "XF"),
        rule(Symbol::Path, "FUF"),
        rule(Symbol::Path, "FU<=NF"),
        rule(Symbol::Comparison, "<"),
        rule(Symbol::Comparison, "<="),
        rule(Symbol::Comparison, ">"),
        rule(Symbol::Comparison, ">="),
        rule(Symbol::Number, "0"),
    ];
    for further in 0..10 {
        let mut parts = vec![Symbol::FirstDigit];
        parts.extend(vec![Symbol::Digit; further]);
        rules.push(Rule { whole: Symbol::Number, parts });
    }
    rules
}

/// The symbol that a byte of a rule stands for.
fn symbol(byte: u8) -> Symbol {
    match byte {
        b'F' => Symbol::Formula,
        b'Q' => Symbol::Path,
        b'C' => Symbol::Comparison,
        b'N' => Symbol::Number,
        _ => Symbol::Byte(byte),
    }
}

/// Is the symbol one that the byte is read for?
fn fits(symbol: Symbol, byte: u8) -> bool {
    match symbol {
        Symbol::Byte(wanted) => wanted == byte,
        Symbol::Letter => (b'a'..=b'p').contains(&byte),
        Symbol::Digit => byte.is_ascii_digit(),
        Symbol::FirstDigit => (b'1'..=b'9').contains(&byte),
        _ => false,
    }
}

/// A set of items in the order in which they came.
#[derive(Default)]
struct Items {
    list: Vec<Item>,
    seen: HashSet<Item>,
}

impl Items {
    fn add(&mut self, item: Item) {
        if self.seen.insert(item) {
            self.list.push(item);
        }
    }
}

/// Reads a text.
pub fn recognise(text: &[u8]) -> Reading {
    let rules = grammar();
    let mut sets: Vec<Items> = (0..=text.len() + 1).map(|_| Items::default()).collect();
    predict(&rules, &mut sets[0], Symbol::Formula, 0);
    let mut reading = Reading { longest: 0, whole: false, spans: Vec::new() };
    for place in 0..=text.len() {
        if sets[place].list.is_empty() {
            break;
        }
        reading.longest = place;
        let mut next = 0;
        while next < sets[place].list.len() {
            let item = sets[place].list[next];
            advance(&rules, &mut sets, text, place, item);
            if rules[item.rule].whole == Symbol::Formula && item.read == rules[item.rule].parts.len() {
                reading.spans.push((item.from, place));
                reading.whole |= item.from == 0 && place == text.len();
            }
            next += 1;
        }
    }
    reading.spans.sort_by_key(|&(from, to)| (to, std::cmp::Reverse(from)));
    reading
}

/// Adds the rules of a symbol, from a place on, none of their parts read.
fn predict(rules: &[Rule], set: &mut Items, whole: Symbol, place: usize) {
    for (rule, _) in rules.iter().enumerate().filter(|(_, rule)| rule.whole == whole) {
        set.add(Item { rule, read: 0, from: place });
    }
}

/// Adds what follows from an item at a place.
fn advance(rules: &[Rule], sets: &mut [Items], text: &[u8], place: usize, item: Item) {
    match rules[item.rule].parts.get(item.read) {
        Some(&part) => {
            predict(rules, &mut sets[place], part, place);
            if text.get(place).is_some_and(|&byte| fits(part, byte)) {
                sets[place + 1].add(Item { read: item.read + 1, ..item });
            }
        }
        None => {
            let whole = rules[item.rule].whole;
            let waits = |other: &&Item| rules[other.rule].parts.get(other.read) == Some(&whole);
            let waiting: Vec<Item> = sets[item.from].list.iter().filter(waits).copied().collect();
            for other in waiting {
                sets[place].add(Item { read: other.read + 1, ..other });
            }
        }
    }
}

/// The records of a formula's text, or its fault; so many records are lent.
pub fn read(text: &[u8], lent: usize) -> Result<Vec<Record>, Fault> {
    let refused = |number, place| Err(Fault { number, place });
    if text.is_empty() || text.len() > 1024 {
        return refused(20, 0);
    }
    let reading = recognise(text);
    if !reading.whole {
        return refused(21, reading.longest);
    }
    if let Some(place) = number_out_of_range(text) {
        return refused(22, place);
    }
    let records: Vec<Record> = (0..reading.spans.len()).map(|i| record(text, &reading.spans, i)).collect();
    if depth(&records) > 32 {
        return refused(23, 0);
    }
    if records.len() > 64 || records.len() > lent {
        return refused(24, 0);
    }
    let unlawful = |&i: &usize| records[i].kind == 6 && !bound_without_steps(&records[i]);
    if let Some(place) = (0..records.len()).filter(unlawful).map(|i| reading.spans[i].0).min() {
        return refused(25, place);
    }
    Ok(records)
}

/// The place of the first number that is too large: a number behind `U<=` tells steps, any other a bound.
fn number_out_of_range(text: &[u8]) -> Option<usize> {
    let starts = |&i: &usize| text[i].is_ascii_digit() && !text[i - 1].is_ascii_digit();
    let too_large = |&i: &usize| {
        let most = if text[..i].ends_with(b"U<=") { 10_000 } else { crate::model::WHOLE };
        number_at(text, i) > most
    };
    (1..text.len()).filter(starts).find(too_large)
}

/// The number that the digits from a place on write.
fn number_at(text: &[u8], place: usize) -> u64 {
    let digits = text[place..].iter().take_while(|byte| byte.is_ascii_digit());
    digits.fold(0, |number, byte| 10 * number + u64::from(byte - b'0'))
}

/// The parts of formula number i: the outermost of the earlier ones within its span, from left to right.
fn parts(spans: &[(usize, usize)], i: usize) -> Vec<usize> {
    let (from, mut limit) = spans[i];
    let mut found = Vec::new();
    for j in (0..i).rev() {
        if spans[j].0 > from && spans[j].1 <= limit {
            found.insert(0, j);
            limit = spans[j].0;
        }
    }
    found
}

/// The record of formula number i.
fn record(text: &[u8], spans: &[(usize, usize)], i: usize) -> Record {
    let from = spans[i].0;
    let parts = parts(spans, i);
    let first = parts.first().copied().unwrap_or(0);
    let second = parts.get(1).copied().unwrap_or(0);
    let mut record = Record { kind: 0, first, second, comparison: 0, number: 0, steps: 0 };
    match text[from] {
        b't' => {}
        b'!' => record.kind = 2,
        b'(' => record.kind = 3,
        b'P' => {
            let equal = usize::from(text[from + 2] == b'=');
            record.comparison = if text[from + 1] == b'<' { 1 } else { 3 } + equal as u8;
            record.number = number_at(text, from + 2 + equal);
            let until = spans[first].1;
            record.kind = match parts.len() {
                1 => 4,
                _ if text[until..].starts_with(b"U<") => 5,
                _ => 6,
            };
            if record.kind == 5 {
                record.steps = number_at(text, until + 3);
            }
        }
        letter => {
            record.kind = 1;
            record.number = u64::from(letter - b'a');
        }
    }
    record
}

/// The depth of the formula of the last record.
fn depth(records: &[Record]) -> usize {
    let mut depths: Vec<usize> = Vec::new();
    for record in records {
        let below = match record.kind {
            0 | 1 => 0,
            2 | 4 => depths[record.first],
            _ => depths[record.first].max(depths[record.second]),
        };
        depths.push(below + 1);
    }
    depths.last().copied().unwrap_or(0)
}

/// Is the bound one of those under which an until without steps may stand?
fn bound_without_steps(record: &Record) -> bool {
    [(3, 0), (2, 0), (4, crate::model::WHOLE)].contains(&(record.comparison, record.number))
}
