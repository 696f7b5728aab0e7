//! Measures the static library against the model, or against another build of it, on the same work in one process.
//!
//! ```text
//! cargo run --release --manifest-path model/speed/Cargo.toml
//! cargo run --release --manifest-path model/speed/Cargo.toml -- --bench PATH
//! cargo run --release --manifest-path model/speed/Cargo.toml -- --before PATH
//! ```
//!
//! Each figure is the best of some rounds in which both sides take turns. The program
//! fails where the two do not end in the same state.

mod before;
mod bench;
mod cases;
mod child;
mod instructions;
mod library;
mod loaded;
mod measure;
mod modelled;
mod mspdebug;
mod options;
mod places;
mod programs;
mod random;
mod size;
mod subject;
mod table;
#[cfg(test)]
mod tests;
mod words;

use options::Task;
use std::process::ExitCode;

fn main() -> ExitCode {
    let done = options::options(std::env::args().skip(1)).and_then(|task| match task {
        Task::Measure(bench) => all(&bench),
        Task::Before(archive) => before::all(&archive),
        Task::ModelBench => bench::be_model().map_err(|error| error.to_string()),
        Task::Counted(counted) => instructions::be_counted(&counted),
    });
    match done {
        Ok(()) => ExitCode::SUCCESS,
        Err(text) => {
            eprintln!("{text}");
            ExitCode::FAILURE
        }
    }
}

/// The whole table, row by row.
fn all(bench: &std::path::Path) -> Result<(), String> {
    println!(
        "best of {} rounds, library and model in turn",
        measure::ROUNDS
    );
    println!("{}", table::heading());
    let mut plain = None;
    for case in cases::cases() {
        let row = measure::row(&case)?;
        plain.get_or_insert(row.library);
        println!("{}", table::line(&row));
    }
    println!("{}", bench::rows(bench)?);
    println!("{}", mspdebug::row(plain.unwrap_or(f64::NAN))?);
    println!("{}", size::row(&library::archive()));
    Ok(())
}
