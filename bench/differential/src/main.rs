//! A second checker of Markov decision processes, written apart from the program kavzhubo, and a driver that compares the two.
//!
//!     differential self-test                              test this checker by itself
//!     differential compare PROGRAM FOLDER COUNT SEED [COMMAND..]
//!     differential check MODEL FORMULA                    a formula's verdicts on a file's model, and ends where there are some

mod answers;
mod cases;
mod compare;
mod exact;
mod formula;
mod formulas;
mod judge;
mod limits;
mod lists;
mod load;
mod model;
mod models;
mod random;
mod rounds;
mod self_test;
mod trial;
mod untils;

use std::path::Path;
use std::process::ExitCode;

fn main() -> ExitCode {
    let words: Vec<String> = std::env::args().skip(1).collect();
    let words: Vec<&str> = words.iter().map(|word| word.as_str()).collect();
    let outcome = match words.as_slice() {
        ["self-test"] => Ok(self_test::run()),
        ["compare", program, folder, count, seed, commands @ ..] => compare(program, folder, count, seed, commands),
        ["check", model, formula] => check(model, formula),
        _ => Err("the words are those that the head of main.rs lists".to_string()),
    };
    match outcome {
        Ok(true) => ExitCode::SUCCESS,
        Ok(false) => ExitCode::FAILURE,
        Err(text) => {
            eprintln!("differential: {}", text);
            ExitCode::from(2)
        }
    }
}

/// Compares cases of the commands that are named, or of all that the program has. Are all alike?
fn compare(program: &str, folder: &str, count: &str, seed: &str, named: &[&str]) -> Result<bool, String> {
    let count = count.parse().map_err(|_| format!("{} is no count", count))?;
    let seed = seed.parse().map_err(|_| format!("{} is no seed", seed))?;
    if let Some(unknown) = named.iter().find(|command| !cases::COMMANDS.contains(command)) {
        return Err(format!("there are no cases for the command {}", unknown));
    }
    let program = Path::new(program).canonicalize().map_err(|error| format!("{}: {}", program, error))?;
    let folder = compare::folder(Path::new(folder)).map_err(|error| format!("{}: {}", folder, error))?;
    let driver = compare::Driver { program, folder };
    let run = || -> std::io::Result<u64> {
        let mut chosen = Vec::new();
        for command in cases::COMMANDS {
            if named.contains(&command) || named.is_empty() && driver.has(command)? {
                chosen.push(command);
            } else {
                let why = if named.is_empty() { "the program has no such command" } else { "it was not asked for" };
                println!("left out, since {}: {}", why, command);
            }
        }
        if chosen.is_empty() {
            return Err(std::io::Error::other("the program has none of the commands"));
        }
        driver.compare(count, seed, &chosen)
    };
    run().map(|differing| differing == 0).map_err(|error| error.to_string())
}

/// Prints a formula's verdict on each state of a file's model, and the ends where there are some.
fn check(path: &str, formula: &str) -> Result<bool, String> {
    let text = std::fs::read(path).map_err(|error| format!("{}: {}", path, error))?;
    let model = load::load(&text).map_err(|fault| format!("{:?}", fault))?;
    let judged = judge::judge(&model, formula.as_bytes(), judge::Sizes::ample(model.size()));
    let judged = judged.map_err(|fault| format!("{:?}", fault))?;
    for (s, verdict) in judged.verdicts.last().unwrap().iter().enumerate() {
        let word = ["no", "yes", "undecided"][*verdict as usize];
        match &judged.ends {
            Some(ends) => println!("state {} {} {} {}", s, word, ends[s].0, ends[s].1),
            None => println!("state {} {}", s, word),
        }
    }
    Ok(true)
}
