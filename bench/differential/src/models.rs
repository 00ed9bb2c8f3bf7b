//! Random models, and texts of models with damage.

use crate::model::{Model, Row, State};
use crate::random::Random;
use std::collections::BTreeSet;

/// How large a random model is to be.
#[derive(Clone, Copy)]
pub enum Size {
    Tiny,
    Small,
    Middle,
    Large,
}

/// A random model of the size.
pub fn model(random: &mut Random, size: Size) -> Model {
    let (states, denominator, choices, branches) = match size {
        Size::Tiny => (random.pick(&[1, 2, 3, 3, 4, 4]), random.pick(&[1, 2, 3, 3, 3, 4, 5, 7]), 3, 3),
        Size::Small => (random.within(1, 9), some_denominator(random), 4, 4),
        Size::Middle => (random.within(10, 60), some_denominator(random), 4, 8),
        Size::Large => (random.within(100, 512), some_denominator(random), 7, 4),
    };
    let states = states as usize;
    let mut left = (2048 - states, 4096 - states);
    let sure = random.below(80);
    let mut list = Vec::new();
    for s in 0..states {
        let mut rows = Vec::new();
        for _ in 0..1 + random.below(choices) {
            if !rows.is_empty() && (left.0 == 0 || left.1 == 0) {
                break;
            }
            left.0 -= usize::from(!rows.is_empty());
            let most = (left.1 + usize::from(rows.is_empty())).min(branches);
            let count = if random.percent(sure) { 1 } else { 1 + random.below(most) };
            let row = row(random, states, s, denominator, count);
            left.1 -= row.len() - usize::from(rows.is_empty());
            rows.push(row);
        }
        list.push(State { labels: labels(random), choices: rows });
    }
    Model { denominator, states: list }
}

fn some_denominator(random: &mut Random) -> u64 {
    let most = random.pick(&[1, 2, 3, 6, 7, 9, 10, 12, 97, 1000, 999_983, 999_999, 1_000_000]);
    if random.percent(50) { most } else { random.within(1, most) }
}

/// A row of about so many branches, most of them near the state.
fn row(random: &mut Random, states: usize, s: usize, denominator: u64, count: usize) -> Row {
    let count = count.min(states).min(denominator as usize);
    let mut targets = BTreeSet::new();
    while targets.len() < count {
        let near = (s + random.below(5)).saturating_sub(2);
        targets.insert(if random.percent(60) && near < states { near } else { random.below(states) });
    }
    let mut cuts = BTreeSet::from([0, denominator]);
    while cuts.len() < count + 1 {
        cuts.insert(random.within(1, denominator - 1));
    }
    let cuts: Vec<u64> = cuts.into_iter().collect();
    targets.into_iter().zip(cuts.windows(2).map(|pair| pair[1] - pair[0])).collect()
}

fn labels(random: &mut Random) -> BTreeSet<u8> {
    let last = if random.percent(10) { b'p' } else { b'd' };
    (b'a'..=last).filter(|_| random.percent(30)).collect()
}

/// A model at or just past a limit: choices, branches, states, or bytes of the text.
pub fn limit_model(random: &mut Random) -> Model {
    match random.below(4) {
        0 => repeated(random, 2047, 1, 3),
        1 => repeated(random, 2047, 2, 3),
        2 => {
            let states = 511 + random.below(3);
            let state = |s| State { labels: BTreeSet::new(), choices: vec![vec![(s, 1)]] };
            Model { denominator: 1, states: (0..states).map(state).collect() }
        }
        _ => {
            let mut model = wide(random);
            lengthen(&mut model, 65_534 + random.below(5));
            model
        }
    }
}

/// A model of one state of which so many choices, or up to three more, have so many branches.
fn repeated(random: &mut Random, choices: usize, branches: usize, states: usize) -> Model {
    let row = |branches: usize| -> Row {
        let last = 4 - branches as u64;
        (0..branches).map(|t| (t, if t + 1 == branches { last + 1 } else { 1 })).collect()
    };
    let mut rows = vec![row(branches); choices + random.below(3) - (states - 1)];
    rows.insert(random.below(rows.len()), row(1 + random.below(3)));
    let mut list: Vec<State> = vec![State { labels: labels(random), choices: rows }];
    list.resize_with(states, || State { labels: BTreeSet::new(), choices: vec![row(1 + random.below(3))] });
    Model { denominator: 4, states: list }
}

/// A model with long numbers and as many choices and branches as there may be.
pub fn wide(random: &mut Random) -> Model {
    let row = |random: &mut Random| -> Row {
        let (first, weight) = (random.within(100, 510), random.within(100_000, 899_999));
        let second = random.within(first + 1, 511);
        vec![(first as usize, weight), (second as usize, 999_999 - weight)]
    };
    let state = |random: &mut Random| State { labels: BTreeSet::new(), choices: (0..4).map(|_| row(random)).collect() };
    Model { denominator: 999_999, states: (0..512).map(|_| state(random)).collect() }
}

/// Gives states labels until the model's text has so many bytes, as far as that goes.
pub fn lengthen(model: &mut Model, bytes: usize) {
    let mut more = bytes.saturating_sub(model.text().len());
    for state in &mut model.states {
        let letters = more.min(15) as u8;
        if letters > 0 {
            state.labels = (b'a'..=b'a' + letters).collect();
            more -= letters as usize;
        }
    }
}

/// A model's text with some damage.
pub fn damaged(random: &mut Random, mut text: Vec<u8>) -> Vec<u8> {
    for _ in 0..1 + random.weighted(&[70, 20, 10]) {
        text = if random.percent(40) { damaged_bytes(random, text, MODEL_BYTES) } else { damaged_lines(random, &text) };
    }
    text
}

const MODEL_BYTES: &[u8] = b"0123456789\t\t\n\n-abpqmdscent \r\x00\xff";

/// A text with a byte changed, put in or taken out, or cut off.
pub fn damaged_bytes(random: &mut Random, mut text: Vec<u8>, bytes: &[u8]) -> Vec<u8> {
    let place = random.below(text.len() + 1);
    match random.weighted(&[40, 30, 25, 5]) {
        0 if place < text.len() => text[place] = random.pick(bytes),
        1 => text.insert(place, random.pick(bytes)),
        2 if place < text.len() => {
            text.remove(place);
        }
        3 => text.truncate(place),
        _ => text.push(random.pick(bytes)),
    }
    text
}

/// A text with a line or a field changed.
fn damaged_lines(random: &mut Random, text: &[u8]) -> Vec<u8> {
    let mut lines: Vec<Vec<u8>> = text.split(|&byte| byte == b'\n').map(|line| line.to_vec()).collect();
    lines.pop();
    if lines.is_empty() {
        return text.to_vec();
    }
    let place = random.below(lines.len());
    let other = random.below(lines.len());
    match random.weighted(&[15, 15, 15, 5, 50]) {
        0 => {
            lines.remove(place);
        }
        1 => lines.insert(place, lines[other].clone()),
        2 => lines.swap(place, other),
        3 => lines.push(random.pick(&[&b"end"[..], b"", b"s\t-", b"c", b"x"]).to_vec()),
        _ => lines[place] = damaged_line(random, &lines[place]),
    }
    let mut text = lines.join(&b'\n');
    text.push(b'\n');
    text
}

/// A line with a field changed, put in or taken out.
fn damaged_line(random: &mut Random, line: &[u8]) -> Vec<u8> {
    let mut fields: Vec<Vec<u8>> = line.split(|&byte| byte == b'\t').map(|field| field.to_vec()).collect();
    let fresh = if fields[0] == b"s" && random.percent(70) {
        random.pick(&["-", "a", "ap", "ba", "aa", "q", "", "-a", "abcdefghijklmnop", "acbd"]).to_string()
    } else if random.percent(50) {
        random.pick(&["0", "1", "2", "00", "01", "08", "512", "513", "1000000", "1000001", "9999999", "10000000", "", "-1", "3x"]).to_string()
    } else {
        random.below(12).to_string()
    };
    let place = random.below(fields.len());
    let field = place.max(usize::from(fields.len() > 1));
    match random.weighted(&[10, 10, 80]) {
        0 => fields.insert(place, fresh.into_bytes()),
        1 if fields.len() > 1 => {
            fields.remove(place);
        }
        _ => fields[field] = fresh.into_bytes(),
    }
    fields.join(&b'\t')
}
