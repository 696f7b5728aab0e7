//! Counts machine instructions by callgrind, which runs this program.

use crate::cases;
use crate::library::Library;
use crate::loaded::Loaded;
use crate::measure;
use crate::options::COUNTED;
use std::path::{Path, PathBuf};
use std::process::{Command, Output};

/// What is counted: so many parts of the case with this number, in a shared object.
pub struct Counted {
    pub object: PathBuf,
    pub case: usize,
    pub parts: u64,
}

/// Whether instructions can be counted here.
pub fn countable() -> bool {
    Command::new("valgrind").arg("--version").output().is_ok()
}

/// Instructions a step: the difference of two counts, so that starting up is left out.
pub fn a_step(object: &Path, case: usize) -> Result<f64, String> {
    let (few, steps) = count(object, case, "1")?;
    let (many, more_steps) = count(object, case, "2")?;
    Ok((many - few) / (more_steps - steps))
}

/// All instructions of this program on a case, and the steps that it made.
fn count(object: &Path, case: usize, parts: &str) -> Result<(f64, f64), String> {
    let told = |error: std::io::Error| error.to_string();
    let Output { stdout, stderr, .. } = Command::new("valgrind")
        .args(["--tool=callgrind", "--callgrind-out-file=/dev/null"])
        .arg(std::env::current_exe().map_err(told)?)
        .arg(COUNTED)
        .arg(object)
        .args([&case.to_string(), parts])
        .output()
        .map_err(told)?;
    let steps = String::from_utf8_lossy(&stdout).trim().parse().ok();
    let text = String::from_utf8_lossy(&stderr);
    let all = text.lines().find_map(|line| {
        let (_, number) = line.split_once("Collected : ")?;
        number.trim().parse().ok()
    });
    all.zip(steps)
        .ok_or(format!("valgrind counts nothing:\n{text}"))
}

/// What is run there: the work, whose steps are told.
pub fn be_counted(counted: &Counted) -> Result<(), String> {
    let library = Library(Loaded::open(&counted.object)?);
    let case = cases::compared().nth(counted.case);
    let case = case.ok_or("no such case")?.cut(counted.parts);
    println!("{}", measure::round(&library, &case).steps);
    Ok(())
}
