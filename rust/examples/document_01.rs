//! Steps document 01's sheet and prints its transcript.
//!
//! `cargo run --release --manifest-path rust/Cargo.toml --example document_01`

use std::io::{self, Write};

use enclave::{End, Machine, Setup, LAST_CLOCK};

const SHEET: &[u8] = include_bytes!("../../sheets/document-01.sheet");

fn main() -> io::Result<()> {
    write_transcript(SHEET, &mut io::stdout().lock())
}

/// Writes the transcript of a sheet: a header, a line for each step, and why the steps stopped.
///
/// # Errors
///
/// What writing answers.
pub fn write_transcript(sheet: &[u8], out: &mut impl Write) -> io::Result<()> {
    match Setup::read(sheet) {
        Ok(setup) => write_steps(setup, out),
        Err(e) => writeln!(out, "E\t{}\t{}", e.refusal.number(), e.line),
    }
}

// Steps until an end is reached.
fn write_steps(mut setup: Setup, out: &mut impl Write) -> io::Result<()> {
    let mut machine = setup.start();
    let mut steps = 0;
    writeln!(out, "step\tkind\tclock\tpc\tsr")?;
    let end = loop {
        if let Some(end) = end_of(&machine, steps == setup.budget.steps()) {
            break end;
        }
        let kind = machine
            .step(&mut setup.memory, &setup.timetable, &setup.trace)
            .map_err(io::Error::other)?;
        steps += 1;
        let (clock, pc, status) = (machine.clock(), machine.pc(), machine.status());
        writeln!(out, "{steps}\t{kind}\t{clock}\t{pc:04X}\t{status:04X}")?;
    };
    writeln!(out, "{end}\t{steps}\t{}", machine.clock())
}

// Why no further step is made, if none is.
fn end_of(machine: &Machine, spent: bool) -> Option<End> {
    if machine.is_halted() {
        Some(End::Halted)
    } else if machine.clock() > LAST_CLOCK {
        Some(End::Clock)
    } else {
        spent.then_some(End::Spent)
    }
}
