//! The command line.

use crate::instructions::Counted;
use std::path::PathBuf;

/// What to do.
pub enum Task {
    /// Measure, with the bench program at this path.
    Measure(PathBuf),
    /// Measure beside the archive at this path.
    Before(PathBuf),
    /// Be the model's bench program: the measuring process starts itself so.
    ModelBench,
    /// Be the program whose instructions are counted: the measuring process starts itself so.
    Counted(Counted),
}

/// The word that makes this program the model's bench program.
pub const MODEL_BENCH: &str = "model-bench";

/// The word that makes this program the one whose instructions are counted.
pub const COUNTED: &str = "counted";

const USAGE: &str = "usage: speed [--bench PATH | --before PATH]";

/// Reads the command line; the error is what to tell.
pub fn options(mut words: impl Iterator<Item = String>) -> Result<Task, String> {
    let built = concat!(env!("CARGO_MANIFEST_DIR"), "/../../target/bin/bench");
    let first = words.next();
    let mut next = || words.next().ok_or(USAGE);
    let task = match first.as_deref() {
        None => Task::Measure(PathBuf::from(built)),
        Some("--bench") => Task::Measure(PathBuf::from(next()?)),
        Some("--before") => Task::Before(PathBuf::from(next()?)),
        Some(MODEL_BENCH) => Task::ModelBench,
        Some(COUNTED) => Task::Counted(Counted {
            object: PathBuf::from(next()?),
            case: next()?.parse().map_err(|_| USAGE)?,
            parts: next()?.parse().map_err(|_| USAGE)?,
        }),
        Some(_) => return Err(USAGE.into()),
    };
    match words.next() {
        None => Ok(task),
        Some(_) => Err(USAGE.into()),
    }
}
