//! The random comparison: drives the static library and the model side by side and reports any
//! difference.
//!
//! ```text
//! cargo run --release --manifest-path model/compare/Cargo.toml -- short
//! cargo run --release --manifest-path model/compare/Cargo.toml -- long --seed 7
//! cargo run --release --manifest-path model/compare/Cargo.toml -- one 7 1234
//! ```
//!
//! A seed decides everything. `one` repeats a single index: its world, its pair of machines, its
//! sheets. The program fails on a difference, on a count of 0 in its table, on other counts of first
//! words than those of document 01's table, and on a mutant of the model that it does not see.

mod aims;
mod calm;
mod counts;
mod course;
mod drive;
mod executed;
mod first_words;
mod frames;
mod instructions;
mod landmarks;
mod laws;
mod layouts;
mod library;
mod mutants;
mod options;
mod parts;
mod questions;
mod random;
mod reading;
mod rides;
mod scene;
mod secrecy;
mod sheets;
mod subject;
mod subjects;
mod timetables;
mod visits;
mod watch;
mod world;

use counts::{Counts, Event};
use options::{Extent, Options, Task};
use parts::{PARTS, SIDES};
use random::Random;
use std::process::ExitCode;
use std::time::Instant;
use world::World;

fn main() -> ExitCode {
    let done = options::options(std::env::args().skip(1)).and_then(|options| match options.task {
        Task::Compare(extent) => compare(&options, extent),
        Task::One(index) => one(&options, index),
    });
    let (text, code) = match done {
        Ok(text) => (text, ExitCode::SUCCESS),
        Err(text) => (text, ExitCode::FAILURE),
    };
    println!("{text}");
    code
}

/// The whole comparison. The answer is the last line.
fn compare(options: &Options, extent: Extent) -> Result<String, String> {
    let started = Instant::now();
    let seed = options.seed;
    let mut counts = Counts::new();
    questions::all(
        SIDES,
        &mut Random::new(seed, 0),
        &mut counts,
        extent.layouts,
    )
    .map_err(|text| format!("difference in a question of seed {seed}: {text}"))?;
    executed::all(SIDES, &mut Random::new(seed, 0), &mut counts)
        .map_err(|text| format!("difference of seed {seed}, {text}"))?;
    for part in PARTS {
        let count = (part.count)(&extent);
        for index in 0..count {
            (part.compare)(options, index, &mut counts)
                .map_err(|text| difference(part.name, seed, index, &text))?;
        }
        let seconds = started.elapsed().as_secs_f64();
        println!("{:<12}{count:>7}, after {seconds:.1} s", part.name);
    }
    println!("\n{}", mutants::mutants(seed)?);
    println!("{}", counts.table());
    let left_out: &[Event] = match options.bench {
        Some(_) => &[],
        None => &[Event::Transcript, Event::TranscriptWithRecords],
    };
    let missing = counts.missing(left_out);
    if !missing.is_empty() {
        return Err(format!("never occurred: {}", missing.join("; ")));
    }
    println!("{}", remarks(&counts));
    println!("seed {seed}, {:.1} s", started.elapsed().as_secs_f64());
    let (steps, calls, worlds) = (counts.steps, counts.calls, counts.worlds);
    Ok(format!(
        "compared {steps} steps in {calls} calls on {worlds} worlds, 0 differences"
    ))
}

/// What the table does not say.
fn remarks(counts: &Counts) -> String {
    let (steps, kept) = (counts.one_by_one, counts.noise_kept);
    format!(
        "{steps} steps were made one by one, with everything compared after each.\n\
         {kept} calls without a step left noise in the saved registers where nothing is held."
    )
}

/// What is told of a difference, and how to see it again.
fn difference(part: &str, seed: u64, index: u64, text: &str) -> String {
    let again = format!("compare one {seed} {index}");
    format!("difference in {part} {index} of seed {seed}, repeat with: {again}\n{text}")
}

/// One index: what its world is, and what each part says of it.
fn one(options: &Options, index: u64) -> Result<String, String> {
    let world = World::new(options.seed, index);
    let first = &world.stamps[..world.stamps.len().min(20)];
    println!("{:04X?}\n{:?}", world.scene, world.begin);
    println!("{} stamps, first {first:?}", world.stamps.len());
    let records = world.ride.stamps.iter().zip(&world.ride.words);
    let first: Vec<_> = records.take(20).collect();
    println!("{} records, first {first:04X?}", world.ride.stamps.len());
    for (number, call) in world.calls.iter().enumerate() {
        println!("call {number}: {call:?}");
    }
    let mut differences = 0;
    for part in PARTS {
        if let Err(text) = (part.compare)(options, index, &mut Counts::new()) {
            println!("{}", difference(part.name, options.seed, index, &text));
            differences += 1;
        }
    }
    match differences {
        0 => Ok("0 differences".into()),
        _ => Err(format!("{differences} of {} parts differ", PARTS.len())),
    }
}
