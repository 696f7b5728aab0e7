//! Document 01's bench program: a sheet on standard input, its transcript or
//! its E line on standard output.

use std::io::{Read, Write};

fn main() -> std::io::Result<()> {
    let mut sheet = Vec::new();
    std::io::stdin().read_to_end(&mut sheet)?;
    std::io::stdout().write_all(&model::bench(&sheet))
}
