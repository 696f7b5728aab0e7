//! Prints the expected output for many sheets, read from standard input: for
//! each its name, a tab, and the last line of its transcript.
//!
//! The input has a name and a sheet in turn, each ended by the byte '%', so
//! that a sheet may hold any other byte, or none.
//!
//! ```text
//! rustc --edition 2021 -O src/bin/readings.rs --extern model=OUT/libmodel.rlib -o OUT/readings
//! OUT/readings < crates/readings/stdin > crates/readings/stdout
//! ```

use std::io::{Read, Write};

fn main() -> std::io::Result<()> {
    let mut input = Vec::new();
    std::io::stdin().read_to_end(&mut input)?;
    let mut output = Vec::new();
    let mut rest = &input[..];
    while !rest.is_empty() {
        let name = next_part(&mut rest);
        let sheet = next_part(&mut rest);
        output.extend_from_slice(name);
        output.push(b'\t');
        output.extend_from_slice(last_line(&model::bench(sheet)));
    }
    std::io::stdout().write_all(&output)
}

/// What stands before the first '%', or all where there is none; the rest goes
/// on past it.
fn next_part<'a>(rest: &mut &'a [u8]) -> &'a [u8] {
    let text = *rest;
    let end = text
        .iter()
        .position(|&byte| byte == b'%')
        .unwrap_or(text.len());
    *rest = text.get(end + 1..).unwrap_or(&[]);
    &text[..end]
}

/// The last line, with its newline.
fn last_line(transcript: &[u8]) -> &[u8] {
    let whole = transcript.strip_suffix(b"\n").unwrap_or(transcript);
    let start = whole
        .iter()
        .rposition(|&byte| byte == b'\n')
        .map_or(0, |at| at + 1);
    &transcript[start..]
}
