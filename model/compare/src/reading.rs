//! Compares the reader of sheets, and the bench program with the model's transcript.

use crate::counts::{Counts, Event};
use crate::drive::Sides;
use crate::random::Random;
use crate::sheets;
use std::io::Write;
use std::path::Path;
use std::process::{Command, Stdio};

/// Reads the sheet of an index on both sides.
pub fn read(sides: Sides, seed: u64, index: u64, counts: &mut Counts) -> Result<(), String> {
    let mut random = Random::new(seed ^ 0x57EE, index);
    let sheet = sheets::sheet(&mut random, 1_000_000);
    let library = (sides.library.read_sheet)(&sheet);
    let model = (sides.model.read_sheet)(&sheet);
    counts.calls += 1;
    match (&library, &model) {
        (Ok(one), Ok(other)) if one == other => {
            counts.event(Event::SheetTaken);
            counts.events(Event::FullSheet, (sheet.len() == sheets::MOST_BYTES) as u64);
            counts.events(Event::FullTimetable, (one.stamps.len() == 4096) as u64);
            counts.events(Event::SheetWithRecords, !one.ride.stamps.is_empty() as u64);
        }
        (Err(one), Err(other)) if one == other => {
            counts.event(Event::SheetRefused);
            counts.refusal(one.0);
            counts.events(Event::SheetRefusedByTen, (one.0 == 10) as u64);
        }
        _ => {
            let short = |read: &crate::subject::SheetRead| match read {
                Ok(setup) => format!(
                    "{:04X?} {} stamps, {} records, budget {}",
                    setup.layout,
                    setup.stamps.len(),
                    setup.ride.stamps.len(),
                    setup.budget
                ),
                Err((number, line)) => format!("refusal {number} in line {line}"),
            };
            return Err(format!(
                "library {}, model {}",
                short(&library),
                short(&model)
            ));
        }
    }
    Ok(())
}

/// Gives the sheet of an index to the bench program and compares its transcript with the model's.
pub fn bench(program: &Path, seed: u64, index: u64, counts: &mut Counts) -> Result<(), String> {
    let mut random = Random::new(seed ^ 0xBE2C, index);
    let most = match random.below(1000) {
        0 => 1_000_000,
        1..=99 => 20_000,
        _ => 300,
    };
    let sheet = sheets::sheet(&mut random, most);
    let expected = model::bench(&sheet);
    let got = transcript(program, &sheet)?;
    counts.calls += 1;
    counts.event(Event::Transcript);
    let records = model::read_sheet(&sheet).is_ok_and(|read| !read.trace_stamps.is_empty());
    counts.events(Event::TranscriptWithRecords, records as u64);
    if got == expected {
        counts.steps += lines(&expected).saturating_sub(2);
        return Ok(());
    }
    let line = got
        .split(|&b| b == b'\n')
        .zip(expected.split(|&b| b == b'\n'))
        .position(|(a, b)| a != b);
    Err(format!(
        "transcripts differ in line {}: {} and {} bytes",
        line.map_or(0, |line| line + 1),
        got.len(),
        expected.len()
    ))
}

fn lines(text: &[u8]) -> u64 {
    text.iter().filter(|&&byte| byte == b'\n').count() as u64
}

/// What the bench program writes to standard output; what it says of a refused sheet is not compared.
/// It may leave the rest of a sheet that is too long unread.
fn transcript(program: &Path, sheet: &[u8]) -> Result<Vec<u8>, String> {
    let told = |error: std::io::Error| format!("{}: {error}", program.display());
    let mut child = Command::new(program)
        .stdin(Stdio::piped())
        .stdout(Stdio::piped())
        .stderr(Stdio::null())
        .spawn()
        .map_err(told)?;
    if let Some(mut input) = child.stdin.take() {
        input
            .write_all(sheet)
            .or_else(|error| match error.kind() {
                std::io::ErrorKind::BrokenPipe => Ok(()),
                _ => Err(error),
            })
            .map_err(told)?;
    }
    let output = child.wait_with_output().map_err(told)?;
    if !output.status.success() {
        return Err(format!("the bench program ended with {}", output.status));
    }
    Ok(output.stdout)
}
