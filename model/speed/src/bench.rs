//! The bench program against the model's, on a sheet of a million steps.

use crate::child;
use crate::measure::{Row, ROUNDS};
use crate::options::MODEL_BENCH;
use crate::programs::{plain, sheet, Trace};
use crate::table;
use std::io::{Read, Write};
use std::path::Path;
use std::process::Command;

/// The steps of the sheet; each gives a line.
const STEPS: u64 = 1_000_000;

/// The model's bench program: a sheet on standard input, its transcript on standard output.
pub fn be_model() -> std::io::Result<()> {
    let mut sheet = Vec::new();
    std::io::stdin().read_to_end(&mut sheet)?;
    std::io::stdout().write_all(&model::bench(&sheet))
}

/// Time a line, starting up included, and memory.
pub fn rows(bench: &Path) -> Result<String, String> {
    if !bench.is_file() {
        return Ok("no bench program: build it with ./bench, or name it with --bench".into());
    }
    let sheet = sheet(&plain(), &[], &Trace::default(), STEPS);
    let mut ours = Command::new(bench);
    let mut theirs = Command::new(std::env::current_exe().map_err(|error| error.to_string())?);
    theirs.arg(MODEL_BENCH);
    let (our_lines, our_memory) = child::watch(&mut ours, &sheet)?;
    let (their_lines, their_memory) = child::watch(&mut theirs, &sheet)?;
    if our_lines != their_lines {
        return Err("the bench programs write different transcripts".into());
    }
    let lines = our_lines.iter().filter(|&&byte| byte == b'\n').count();
    let row = lines_row(&mut ours, &mut theirs, &sheet, lines as f64)?;
    let second = 1e3 / row.library;
    Ok(format!(
        "{}\nbench: {second:.1} million lines a second; memory {our_memory} kB, model's {their_memory} kB\n{}",
        table::line(&row),
        stamps_rows(&mut ours, lines as f64)?
    ))
}

/// A line with many stamps and records by a line with none: the best rounds, taken in turn. A sheet has no room for 4,096 of both: each row
/// has about as many as fit. The clock goes to about 1,800,000.
fn stamps_rows(ours: &mut Command, lines: f64) -> Result<String, String> {
    let sheets = [
        ("no stamps", stamped(0, |i| i)),
        ("4,096 stamps, passed at the start", stamped(4096, |i| i)),
        ("3,200 stamps, passed all along", stamped(3200, |i| i * 500)),
        ("3,200 stamps, all ahead", stamped(3200, |i| 9_000_000 + i)),
        (
            "1,770 stamps and 1,770 records, passed at the start",
            listed(1770, |i| 2 * i - 1, |i| 2 * i),
        ),
        (
            "1,370 stamps and 1,370 records, passed all along",
            listed(1370, |i| i * 1_200, |i| i * 1_200 + 600),
        ),
        (
            "1,300 stamps and 1,300 records, all ahead",
            listed(1300, |i| 9_000_000 + 2 * i, |i| 9_000_001 + 2 * i),
        ),
    ];
    let mut best = [f64::MAX; 7];
    for _ in 0..3 * ROUNDS {
        for (best, (_, sheet)) in best.iter_mut().zip(&sheets) {
            *best = best.min(child::time(ours, sheet)?.as_secs_f64() * 1e9 / lines);
        }
    }
    let rows = sheets.iter().zip(best).map(|((what, _), time)| {
        let ratio = time / best[0];
        format!("bench line, {what}: {time:.1} ns, {ratio:.2} times that without")
    });
    Ok(rows.collect::<Vec<_>>().join("\n"))
}

/// The sheet with so many stamps.
fn stamped(count: u64, stamp: fn(u64) -> u64) -> Vec<u8> {
    let stamps: Vec<u64> = (1..=count).map(stamp).collect();
    sheet(&plain(), &stamps, &Trace::default(), STEPS)
}

/// The sheet with so many stamps and as many records.
fn listed(count: u64, stamp: fn(u64) -> u64, record: fn(u64) -> u64) -> Vec<u8> {
    let stamps: Vec<u64> = (1..=count).map(stamp).collect();
    let trace = Trace::at((1..=count).map(record).collect());
    sheet(&plain(), &stamps, &trace, STEPS)
}

/// The best rounds of both programs.
fn lines_row(
    ours: &mut Command,
    theirs: &mut Command,
    sheet: &[u8],
    lines: f64,
) -> Result<Row, String> {
    let (mut library, mut model) = (f64::MAX, f64::MAX);
    for _ in 0..ROUNDS {
        library = library.min(child::time(ours, sheet)?.as_secs_f64() * 1e9 / lines);
        model = model.min(child::time(theirs, sheet)?.as_secs_f64() * 1e9 / lines);
    }
    Ok(Row {
        what: "bench program, a line".into(),
        library,
        model,
    })
}
