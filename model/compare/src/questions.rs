//! Compares read, write and access: every first word, every row around the edges of its fields,
//! random layouts.

use crate::counts::{Counts, Event};
use crate::drive::Sides;
use crate::first_words::Pass;
use crate::layouts;
use crate::random::Random;
use crate::subject::{Addresses, Read};
use std::fmt::Debug;

/// One question's two answers.
fn same<T: PartialEq + Debug>(
    what: impl Fn() -> String,
    library: Result<T, u8>,
    model: Result<T, u8>,
    counts: &mut Counts,
) -> Result<(), String> {
    if library != model {
        return Err(format!("{}: library {library:?}, model {model:?}", what()));
    }
    if let Err(number) = library {
        counts.refusal(number);
    }
    counts.calls += 1;
    counts.event(Event::Question);
    Ok(())
}

/// Reads every first word; the library's own answers are counted.
pub fn reading(sides: Sides, random: &mut Random, counts: &mut Counts) -> Result<(), String> {
    let mut pass = Pass::new();
    for first in 0..=0xFFFF {
        let answers = read(sides, first, random, counts)?;
        pass.count(&answers)
            .map_err(|text| format!("first word {first:04X} {text}"))?;
    }
    pass.end(counts)
}

/// Reads a first word with several second words. The library's answers.
fn read(
    sides: Sides,
    first: u16,
    random: &mut Random,
    counts: &mut Counts,
) -> Result<[Read; 6], String> {
    let seconds = [0x0000, 0xFFFF, 0xFFFE, 0x0001, random.word(), random.word()];
    let answers = seconds.map(|second| (sides.library.read)(first, second));
    for (second, library) in seconds.into_iter().zip(answers) {
        let model = (sides.model.read)(first, second);
        let what = || format!("read {first:04X} {second:04X}");
        same(what, library, model, counts)?;
    }
    Ok(answers)
}

/// Registers at the edges and beyond them.
const REGISTERS: [u16; 24] = [
    0, 1, 2, 3, 4, 5, 6, 7, 8, 9, 10, 11, 12, 13, 14, 15, 16, 17, 255, 256, 257, 259, 0x8000,
    0xFFFF,
];
const TABLE_ROWS: [u16; 22] = [
    0, 1, 2, 3, 4, 5, 6, 7, 8, 9, 10, 11, 12, 13, 14, 15, 16, 17, 255, 256, 0x8000, 0xFFFF,
];

/// Writes every row with registers at the edges.
fn writing(sides: Sides, random: &mut Random, counts: &mut Counts) -> Result<(), String> {
    for row in TABLE_ROWS {
        for source in REGISTERS {
            for destination in REGISTERS {
                for constant in [0x0000, 0xFFFF, random.word()] {
                    let fields = [row, source, destination, constant];
                    let library = (sides.library.write)(&fields);
                    let model = (sides.model.write)(&fields);
                    same(|| format!("write {fields:?}"), library, model, counts)?;
                }
            }
        }
    }
    Ok(())
}

/// An address, mostly at an edge.
fn anywhere(random: &mut Random, layout: &Addresses) -> u16 {
    match random.below(8) {
        0 => random.word(),
        _ => layouts::edge(random, layout),
    }
}

/// Asks for access on random layouts, at the edges and anywhere.
fn access(
    sides: Sides,
    random: &mut Random,
    counts: &mut Counts,
    times: u64,
) -> Result<(), String> {
    for _ in 0..times {
        let layout = match random.below(5) {
            0 => layouts::broken(random),
            _ => layouts::taken(random),
        };
        for _ in 0..32 {
            let from = anywhere(random, &layout);
            let address = anywhere(random, &layout);
            let library = (sides.library.access)(&layout, from, address);
            let model = (sides.model.access)(&layout, from, address);
            let what = || format!("access {layout:04X?} from {from:04X} to {address:04X}");
            same(what, library, model, counts)?;
        }
    }
    Ok(())
}

/// All questions.
pub fn all(
    sides: Sides,
    random: &mut Random,
    counts: &mut Counts,
    layouts: u64,
) -> Result<(), String> {
    reading(sides, random, counts)?;
    writing(sides, random, counts)?;
    access(sides, random, counts, layouts)
}
