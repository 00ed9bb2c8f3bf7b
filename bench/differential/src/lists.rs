//! Random lists of limits, lawful ones and damaged ones.

use crate::formulas;
use crate::model::Model;
use crate::models::damaged_bytes;
use crate::random::Random;

const LIST_BYTES: &[u8] = b"#\n\n\r\t  !a(&)P>0[X]U<=1\x00\x1b\x7f\x80\xc3\xff";
const ODD_BYTES: &[u8] = b"\t\t\r\x00\x01\x07\x08\x0b\x1b\x1f\x7f\x80\x9b\xc3\xa4\xff~ #";

/// A random list; with a model, many bounds are near the ends of some state.
pub fn list(random: &mut Random, model: Option<&Model>) -> Vec<u8> {
    let most = random.pick(&[1, 3, 6, 12]);
    let length = if random.percent(4) { 0 } else { 1 + random.below(most) };
    let lines: Vec<Vec<u8>> = (0..length).map(|_| line(random, model)).collect();
    let mut list = lines.join(if random.percent(4) { &b"\r\n"[..] } else { b"\n" });
    if random.percent(75) && !lines.is_empty() {
        list.push(b'\n');
    }
    if random.percent(12) { damaged_bytes(random, list, LIST_BYTES) } else { list }
}

fn line(random: &mut Random, model: Option<&Model>) -> Vec<u8> {
    match random.weighted(&[12, 15, 55, 10, 5, 4, 3, 2]) {
        0 => Vec::new(),
        1 => heading(random),
        2 => lawful(random, model).into_bytes(),
        3 => {
            let text = lawful(random, model);
            formulas::damaged(random, &text)
        }
        4 => formulas::limit_formula(random).into_bytes(),
        5 => {
            let text = lawful(random, model).into_bytes();
            beside(random, text)
        }
        6 => long(random),
        _ => (0..1 + random.below(12)).map(|_| random.pick(LIST_BYTES)).collect(),
    }
}

/// A formula, shorter where the model is large; now and then one with numbers that are too large.
fn lawful(random: &mut Random, model: Option<&Model>) -> String {
    let small = model.map_or(true, |model| model.branches() <= 60);
    let parts = 1 + random.below(if small { 10 } else { 4 });
    match model {
        Some(model) if random.percent(45) => formulas::close(random, model),
        Some(_) if small && random.percent(15) => formulas::formula(random, None, parts),
        _ => formulas::formula(random, model, parts),
    }
}

/// A heading: words, odd bytes among them, now and then very many.
fn heading(random: &mut Random) -> Vec<u8> {
    let length = random.pick(&[0, 3, 20, 20, 60, 1030, 3000]);
    let odd = random.pick(&[0, 0, 10, 60]);
    let byte = |random: &mut Random| if random.percent(odd) { random.pick(ODD_BYTES) } else { random.within(32, 126) as u8 };
    let text: Vec<u8> = (0..random.below(length + 1)).map(|_| byte(random)).collect();
    [b"#", &text[..]].concat()
}

/// A text with a blank, a tab, a CR or another odd byte before it, behind it, or within.
fn beside(random: &mut Random, mut text: Vec<u8>) -> Vec<u8> {
    let byte = if random.percent(60) { random.pick(b" \t\r") } else { random.pick(ODD_BYTES) };
    let within = random.below(text.len() + 1);
    let place = random.pick(&[0, text.len(), text.len(), within]);
    text.insert(place, byte);
    text
}

/// A line of about as many bytes as a formula may have, or of many more.
fn long(random: &mut Random) -> Vec<u8> {
    let length = random.pick(&[1022, 1023, 1024, 1025, 2000, 70_000]);
    let byte = random.pick(b"!a\xff\t ");
    let mut text = vec![byte; length];
    text.push(random.pick(b"a\rb"));
    text
}
