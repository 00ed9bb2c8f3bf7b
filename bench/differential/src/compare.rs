//! The driver: runs the program on random cases and compares what it prints with what is expected.

use crate::answers::{difference, Source};
use crate::cases::{case, Case};
use crate::random::Random;
use std::collections::BTreeMap;
use std::fs::{self, File};
use std::io;
use std::path::{Path, PathBuf};
use std::process::{Child, Command, Stdio};
use std::time::{Duration, Instant};

/// What a run of the program gave.
struct Run {
    status: Option<i32>,
    out: Vec<u8>,
    error: Vec<u8>,
}

/// A program to compare with, and the folder where its files are put.
pub struct Driver {
    pub program: PathBuf,
    pub folder: PathBuf,
}

impl Driver {
    /// Does the program have the command? One that it does not have is told on standard error.
    pub fn has(&self, command: &str) -> io::Result<bool> {
        let run = self.run(&[command.as_bytes().to_vec()])?;
        Ok(!String::from_utf8_lossy(&run.error).contains("there is no command"))
    }

    /// Compares so many cases of the commands, case i being that of the seed and i. Prints counts by kind and the first case that
    /// differs, and answers how many do.
    pub fn compare(&self, count: u64, seed: u64, commands: &[&'static str]) -> io::Result<u64> {
        let mut kinds: BTreeMap<String, u64> = BTreeMap::new();
        let mut differing = 0;
        for index in 0..count {
            let mut random = Random::new(seed.wrapping_add(index));
            let command = commands[random.below(commands.len())];
            let case = case(&mut random, command);
            for kind in &case.expected.kinds {
                *kinds.entry(format!("{} {}", command, kind)).or_default() += 1;
            }
            let run = self.run_case(&case)?;
            if let Some(text) = difference(&case.expected, run.status, &run.out, &run.error) {
                differing += 1;
                *kinds.entry(format!("{} DIFFERS", command)).or_default() += 1;
                if differing == 1 {
                    self.keep(&case, &run, &text, seed.wrapping_add(index))?;
                }
            }
        }
        for (kind, count) in &kinds {
            println!("{:8} {}", count, kind);
        }
        println!("{} cases of seed {}, {} differ", count, seed, differing);
        Ok(differing)
    }

    fn run_case(&self, case: &Case) -> io::Result<Run> {
        let mut words = vec![case.command.as_bytes().to_vec()];
        match &case.model {
            Some(Source::Text(text)) => {
                fs::write(self.folder.join("model.mdp"), text)?;
                words.push(b"model.mdp".to_vec());
            }
            Some(Source::Ladder(word)) => words.push(word.as_bytes().to_vec()),
            None => {}
        }
        words.extend(case.words.iter().cloned());
        if let Some((name, text)) = &case.file {
            fs::write(self.folder.join(name), text)?;
            words.push(name.as_bytes().to_vec());
        }
        self.run(&words)
    }

    /// Runs the program with the words, for at most a minute.
    fn run(&self, words: &[Vec<u8>]) -> io::Result<Run> {
        use std::os::unix::ffi::OsStrExt;
        let (out, error) = (self.folder.join("printed"), self.folder.join("error"));
        let child = Command::new(&self.program)
            .args(words.iter().map(|word| std::ffi::OsStr::from_bytes(word)))
            .current_dir(&self.folder)
            .stdin(Stdio::null())
            .stdout(File::create(&out)?)
            .stderr(File::create(&error)?)
            .spawn()?;
        let status = wait(child)?;
        Ok(Run { status, out: fs::read(out)?, error: fs::read(error)? })
    }

    /// Keeps the files of a case that differs and says what differs.
    fn keep(&self, case: &Case, run: &Run, text: &str, seed: u64) -> io::Result<()> {
        let kept = self.folder.join("differs");
        let _ = fs::remove_dir_all(&kept);
        fs::create_dir_all(&kept)?;
        let mut line = format!("{}", case.command);
        match &case.model {
            Some(Source::Text(text)) => {
                fs::write(kept.join("model.mdp"), text)?;
                line += " model.mdp";
            }
            Some(Source::Ladder(word)) => line += &format!(" {}", word),
            None => {}
        }
        for word in &case.words {
            line += &format!(" '{}'", String::from_utf8_lossy(word));
        }
        if let Some((name, text)) = &case.file {
            fs::write(kept.join(name), text)?;
            line += &format!(" {}", name);
        }
        let expected: Vec<String> = case.expected.lines.iter().map(|line| line.text()).collect();
        fs::write(kept.join("expected"), expected.join("\n") + "\n")?;
        fs::write(kept.join("printed"), &run.out)?;
        fs::write(kept.join("error"), &run.error)?;
        println!("the first that differs has the seed {}: {}", seed, text);
        println!("  {}", line);
        println!("  its files are in {}", kept.display());
        Ok(())
    }
}

/// Waits for a child, which is ended after a minute; its exit status, if it ended by itself.
fn wait(mut child: Child) -> io::Result<Option<i32>> {
    let begun = Instant::now();
    let mut pause = Duration::from_micros(100);
    loop {
        if let Some(status) = child.try_wait()? {
            return Ok(status.code());
        }
        if begun.elapsed() > Duration::from_secs(60) {
            child.kill()?;
            child.wait()?;
            return Ok(None);
        }
        std::thread::sleep(pause);
        pause = (pause * 2).min(Duration::from_millis(10));
    }
}

/// The folder for the files, made if need be.
pub fn folder(path: &Path) -> io::Result<PathBuf> {
    fs::create_dir_all(path)?;
    path.canonicalize()
}
