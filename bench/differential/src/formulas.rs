//! Random formulas, and texts of formulas with damage.

use crate::judge::{judge, Sizes};
use crate::model::{Model, WHOLE};
use crate::models::damaged_bytes;
use crate::random::Random;

const FORMULA_BYTES: &[u8] = b"truea!bXUP()&[]<>=0019~\x7f";

/// A random formula of about so many parts. With a model, many bounds are near the ends of some state.
pub fn formula(random: &mut Random, model: Option<&Model>, parts: usize) -> String {
    if parts <= 1 {
        return leaf(random);
    }
    let split = 1 + random.below(parts - 1);
    let left = |random: &mut Random| formula(random, model, split);
    let right = |random: &mut Random| formula(random, model, parts - split);
    match random.weighted(&[12, 16, 25, 32, 15]) {
        0 => format!("!{}", formula(random, model, parts - 1)),
        1 => format!("({}&{})", left(random), right(random)),
        2 => {
            let path = format!("X{}", formula(random, model, parts - 1));
            bounded(random, model, &path)
        }
        3 => {
            let path = format!("{}U<={}{}", left(random), steps(random, model), right(random));
            bounded(random, model, &path)
        }
        _ => {
            let bound = if random.percent(97) { random.pick(&[">0", "<=0", ">=1000000000"]) } else { random.pick(&["<0", ">=0", ">5", "<1000000000", ">1"]) };
            format!("P{}[{}U{}]", bound, left(random), right(random))
        }
    }
}

fn leaf(random: &mut Random) -> String {
    match random.below(10) {
        0..=2 => "true".to_string(),
        3 => ((b'a' + random.below(16) as u8) as char).to_string(),
        _ => ((b'a' + random.below(4) as u8) as char).to_string(),
    }
}

/// Steps, fewer the larger the model is.
fn steps(random: &mut Random, model: Option<&Model>) -> u64 {
    let most = match model.map(|model| model.branches()) {
        None if random.percent(4) => random.pick(&[10_001, 4_294_967_296, 9_999_999_999]),
        None => random.pick(&[1, 10, 10_000]),
        Some(0..=60) => random.pick(&[0, 1, 2, 3, 5, 10, 30, 10_000]),
        Some(_) => random.pick(&[1, 3, 20]),
    };
    if random.percent(40) { most } else { random.within(0, most) }
}

/// A `P` over the path, a next or an until with steps.
fn bounded(random: &mut Random, model: Option<&Model>, path: &str) -> String {
    let comparison = random.pick(&["<", "<=", ">", ">="]);
    let bound = match model {
        Some(model) if random.percent(60) => near(random, model, comparison, path),
        Some(_) if random.percent(95) => some_bound(random).min(WHOLE),
        _ => some_bound(random),
    };
    format!("P{}{}[{}]", comparison, bound, path)
}

/// A next or an until with steps of which the bound is between or beside the ends of some state, often with more around it.
pub fn close(random: &mut Random, model: &Model) -> String {
    let (left, right) = (leaf(random), leaf(random));
    let path = if random.percent(20) { format!("X{}", right) } else { format!("{}U<={}{}", left, steps(random, Some(model)), right) };
    let comparison = random.pick(&["<", "<=", ">", ">="]);
    let inner = format!("P{}{}[{}]", comparison, near(random, model, comparison, &path), path);
    match random.below(9) {
        0 => format!("!{}", inner),
        1 => format!("({}&{})", leaf(random), inner),
        2 => bounded(random, Some(model), &format!("X{}", inner)),
        3 => format!("P{}[{}U{}]", random.pick(&[">0", "<=0", ">=1000000000"]), leaf(random), inner),
        _ => inner,
    }
}

/// A bound: the whole, nothing, simple parts of the whole, now and then more than the whole.
fn some_bound(random: &mut Random) -> u64 {
    match random.below(8) {
        0 => 0,
        1 => WHOLE,
        2 => random.within(0, WHOLE),
        3 if random.percent(10) => random.pick(&[WHOLE + 1, 4_294_967_296, 9_999_999_999]),
        _ => {
            let out_of = random.within(1, 12);
            let bound = WHOLE * random.within(0, out_of) / out_of;
            if bound < WHOLE { bound + random.within(0, 1) } else { bound }
        }
    }
}

/// A bound between or beside the ends of some state.
fn near(random: &mut Random, model: &Model, comparison: &str, path: &str) -> u64 {
    let text = format!("P{}0[{}]", comparison, path);
    let ends = judge(model, text.as_bytes(), Sizes::ample(model.size())).ok().and_then(|judged| judged.ends);
    match ends {
        Some(ends) => {
            let apart: Vec<(u64, u64)> = ends.iter().copied().filter(|(lower, upper)| lower < upper).collect();
            let among = if apart.is_empty() || random.percent(20) { ends } else { apart };
            let (lower, upper) = random.pick(&among);
            match random.below(10) {
                0 => lower.saturating_sub(1),
                1 => (upper + 1).min(WHOLE),
                _ => random.within(lower, upper),
            }
        }
        None => some_bound(random).min(WHOLE),
    }
}

/// A formula at or just past a limit: of the depth, of the records, or of the length.
pub fn limit_formula(random: &mut Random) -> String {
    let count = 29 + random.below(5);
    match random.below(6) {
        0 => "!".repeat(count) + &leaf(random),
        1 => "P>0[X".repeat(count) + &leaf(random) + &"]".repeat(count),
        2 => "P>0[aU".repeat(count) + &leaf(random) + &"]".repeat(count),
        3 => "(a&".repeat(count) + &leaf(random) + &")".repeat(count),
        4 => balanced(31 + random.below(3)),
        _ => "(a&".repeat(340) + "aaa" + &"a".repeat(random.below(3)),
    }
}

/// A conjunction of so many leaves, as shallow as can be.
fn balanced(leaves: usize) -> String {
    match leaves {
        1 => "b".to_string(),
        2 => "(a&!c)".to_string(),
        _ => format!("({}&{})", balanced(leaves / 2), balanced(leaves - leaves / 2)),
    }
}

/// Texts that are mostly damaged formulas.
pub fn damaged(random: &mut Random, text: &str) -> Vec<u8> {
    let mut text = text.as_bytes().to_vec();
    for _ in 0..1 + random.weighted(&[75, 20, 5]) {
        text = damaged_bytes(random, text, FORMULA_BYTES);
    }
    text
}
