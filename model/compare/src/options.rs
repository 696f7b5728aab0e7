//! The command line.

use std::path::PathBuf;

/// How much is compared.
#[derive(Clone, Copy)]
pub struct Extent {
    pub worlds: u64,
    pub layouts: u64,
    pub pairs: u64,
    pub sheets: u64,
    pub transcripts: u64,
}

/// Under a minute.
const SHORT: Extent = Extent {
    worlds: 6_000,
    layouts: 5_000,
    pairs: 3_000,
    sheets: 6_000,
    transcripts: 400,
};

/// Some minutes.
const LONG: Extent = Extent {
    worlds: 90_000,
    layouts: 50_000,
    pairs: 30_000,
    sheets: 50_000,
    transcripts: 4_000,
};

/// What to do.
pub enum Task {
    Compare(Extent),
    /// One index only: its world, its pair and its sheets.
    One(u64),
}

pub struct Options {
    pub task: Task,
    pub seed: u64,
    /// The bench program, unless it is left out on purpose.
    pub bench: Option<PathBuf>,
}

pub const USAGE: &str = "usage: compare short|long [--seed N] [--bench PATH | --without-bench]
       compare one SEED INDEX [--bench PATH | --without-bench]";

/// What to do where there is no bench program.
const ADVICE: &str =
    "build it with ./bench, name it with --bench, or leave it out with --without-bench";

/// The seed where none is given.
const SEED: u64 = 1;

/// Reads the command line; the error is what to tell.
pub fn options(mut words: impl Iterator<Item = String>) -> Result<Options, String> {
    let usage = || USAGE.to_string();
    let number = |word: Option<String>| {
        word.and_then(|word| word.parse::<u64>().ok())
            .ok_or_else(usage)
    };
    let mut seed = SEED;
    let task = match words.next().as_deref() {
        Some("short") => Task::Compare(SHORT),
        Some("long") => Task::Compare(LONG),
        Some("one") => {
            seed = number(words.next())?;
            Task::One(number(words.next())?)
        }
        _ => return Err(usage()),
    };
    let folder = concat!(env!("CARGO_MANIFEST_DIR"), "/../../target/bin/bench");
    let mut bench = Some(PathBuf::from(folder));
    while let Some(word) = words.next() {
        match word.as_str() {
            "--seed" => seed = number(words.next())?,
            "--bench" => bench = Some(PathBuf::from(words.next().ok_or_else(usage)?)),
            "--without-bench" => bench = None,
            _ => return Err(usage()),
        }
    }
    if let Some(path) = bench.as_ref().filter(|path| !path.is_file()) {
        return Err(format!("no bench program at {}: {ADVICE}", path.display()));
    }
    Ok(Options { task, seed, bench })
}
