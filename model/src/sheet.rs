//! "Bench sheet": the sheet's reader and the transcript; with the T lines of
//! document 02, request a.

use crate::calls::{Stop, MOST_STEPS};
use crate::memory::{write_word, Layout, MEMORY_BYTES};
use crate::state::{Machine, PC, SR};
use crate::time::{Lists, Trace, LAST_STAMP, MOST_STAMPS};

/// Refusal 8: "above 32,768 bytes".
const MOST_SHEET_BYTES: usize = 32_768;

/// What a sheet sets up.
pub struct Sheet {
    pub layout: Layout,
    pub memory: Vec<u8>,
    pub stamps: Vec<u64>,
    pub trace_stamps: Vec<u64>,
    pub trace_words: Vec<u16>,
    pub budget: u64,
}

/// The whole transcript, or the E line: "A refusal prints only E, number,
/// line."
pub fn bench(sheet: &[u8]) -> Vec<u8> {
    match read_sheet(sheet) {
        Ok(sheet) => transcript(sheet),
        Err((number, line)) => format!("E\t{number}\t{line}\n").into_bytes(),
    }
}

/// "Hexadecimal is four digits, capitals."
fn hexadecimal(field: &[u8]) -> Option<u16> {
    if field.len() != 4 {
        return None;
    }
    let mut value = 0;
    for &byte in field {
        let digit = match byte {
            b'0'..=b'9' => byte - b'0',
            b'A'..=b'F' => byte - b'A' + 10,
            _ => return None,
        };
        value = 16 * value + digit as u16;
    }
    Some(value)
}

/// "Decimals carry no leading zero (a lone 0 is fine) and at most 19 digits."
fn decimal(field: &[u8]) -> Option<u64> {
    if field.is_empty() || field.len() > 19 {
        return None;
    }
    if field.len() > 1 && field[0] == b'0' {
        return None;
    }
    let mut value = 0;
    for &byte in field {
        if !byte.is_ascii_digit() {
            return None;
        }
        value = 10 * value + (byte - b'0') as u64;
    }
    Some(value)
}

/// "First L and the five addresses; then any lines of M, even address, word,
/// or A, stamp; last G, budget." "New sheet lines T, stamp, word may stand
/// among the M and A lines." The error is refusal number and line: "On a
/// sheet 8 comes before all, then the earlier line, then on one line 7 before
/// the rest."
pub fn read_sheet(sheet: &[u8]) -> Result<Sheet, (u8, usize)> {
    if sheet.len() > MOST_SHEET_BYTES {
        return Err((8, 0));
    }
    let mut layout = None;
    // "Later M lines win; other memory is 0."
    let mut memory = vec![0; MEMORY_BYTES];
    let mut stamps: Vec<u64> = Vec::new();
    let mut trace_stamps: Vec<u64> = Vec::new();
    let mut trace_words: Vec<u16> = Vec::new();
    let mut budget = None;
    let mut number = 0;
    let mut rest = sheet;
    while !rest.is_empty() {
        number += 1;
        // "Each line ends with a newline."
        let Some(end) = rest.iter().position(|&byte| byte == b'\n') else {
            return Err((7, number));
        };
        let line = &rest[..end];
        rest = &rest[end + 1..];
        // "Any line after G is bad (7)."
        if budget.is_some() {
            return Err((7, number));
        }
        // "Fields are parted by tabs."
        let fields: Vec<&[u8]> = line.split(|&byte| byte == b'\t').collect();
        if number == 1 {
            let read = read_layout(&fields).ok_or((7, number))?;
            if !read.valid() {
                return Err((2, number));
            }
            layout = Some(read);
        } else if fields[0] == b"M" && fields.len() == 3 {
            let address = hexadecimal(fields[1]).ok_or((7, number))?;
            let word = hexadecimal(fields[2]).ok_or((7, number))?;
            if address % 2 == 1 {
                return Err((7, number));
            }
            write_word(&mut memory, address, word);
        } else if fields[0] == b"A" && fields.len() == 2 {
            let stamp = decimal(fields[1]).ok_or((7, number))?;
            let too_many = stamps.len() == MOST_STAMPS;
            if too_many || !follows(&stamps, stamp) {
                return Err((3, number));
            }
            stamps.push(stamp);
        } else if fields[0] == b"T" && fields.len() == 3 {
            let stamp = decimal(fields[1]).ok_or((7, number))?;
            let word = hexadecimal(fields[2]).ok_or((7, number))?;
            // 4,097 lines of 9 bytes or more are above 32,768 bytes.
            if !follows(&trace_stamps, stamp) {
                return Err((10, number));
            }
            trace_stamps.push(stamp);
            trace_words.push(word);
        } else if fields[0] == b"G" && fields.len() == 2 {
            let read = decimal(fields[1]).ok_or((7, number))?;
            if read > MOST_STEPS {
                return Err((5, number));
            }
            budget = Some(read);
        } else {
            return Err((7, number));
        }
    }
    // "A missing line counts at the place after the last."
    let (Some(layout), Some(budget)) = (layout, budget) else {
        return Err((7, number + 1));
    };
    Ok(Sheet {
        layout,
        memory,
        stamps,
        trace_stamps,
        trace_words,
        budget,
    })
}

/// Whether a stamp is in its range and above the last one of its own list: "A
/// and T lists rise each by itself".
fn follows(stamps: &[u64], stamp: u64) -> bool {
    let rising = stamps.last().is_none_or(|&last| last < stamp);
    1 <= stamp && stamp <= LAST_STAMP && rising
}

fn read_layout(fields: &[&[u8]]) -> Option<Layout> {
    if fields.len() != 6 || fields[0] != b"L" {
        return None;
    }
    Some(Layout {
        code_start: hexadecimal(fields[1])?,
        code_end: hexadecimal(fields[2])?,
        data_start: hexadecimal(fields[3])?,
        data_end: hexadecimal(fields[4])?,
        service: hexadecimal(fields[5])?,
    })
}

/// "A header line comes first. Fields: step from 1, kind, values after it."
/// "The last line is the run's end (H, S spent, T clock), steps, clock." No
/// sheet carries a stop address.
fn transcript(sheet: Sheet) -> Vec<u8> {
    let Sheet {
        layout,
        mut memory,
        stamps,
        trace_stamps,
        trace_words,
        budget,
    } = sheet;
    let lists = Lists {
        timetable: &stamps,
        trace: Trace {
            stamps: &trace_stamps,
            words: &trace_words,
        },
    };
    let mut text = String::from("step\tkind\tclock\tpc\tsr\n");
    let mut machine = Machine::start_state(&memory);
    let mut steps = 0;
    loop {
        if let Some(end) = machine.end(Stop::Never, steps, budget) {
            text += &format!("{}\t{}\t{}\n", end.letter(), steps, machine.clock);
            return text.into_bytes();
        }
        let outcome = machine.one_step(&mut memory, &layout, lists);
        steps += 1;
        text += &format!(
            "{}\t{}\t{}\t{:04X}\t{:04X}\n",
            steps,
            outcome.letter(),
            machine.clock,
            machine.registers[PC],
            machine.registers[SR]
        );
    }
}
