//! The linked library beside another archive of it: both loaded as shared objects that are made alike.

use crate::cases::{self, Case};
use crate::instructions;
use crate::library::{self, Library};
use crate::loaded::Loaded;
use crate::measure::{round, Round};
use crate::places::{Folder, Placed, PLACES};
use crate::size;
use crate::table;
use std::hint::black_box;
use std::path::Path;

/// The rounds of each figure, the best of which counts: many and short, since what disturbs comes and goes.
const ROUNDS: usize = 320;

/// Rounds are made at so many depths of the stack, so many bytes apart, so that the place of a call's own data does not decide.
const DEPTHS: usize = 16;
const DEEPER: usize = 256;

/// Of one archive: nanoseconds a step at the best and at the worst place, and instructions a step, where they can be counted.
pub struct Side {
    pub best: f64,
    pub worst: f64,
    pub instructions: Option<f64>,
}

/// The whole table, row by row.
pub fn all(before: &Path) -> Result<(), String> {
    let folder = Folder::new()?;
    let after = library::archive();
    let sides = [
        Placed::new(&folder, "before", before)?,
        Placed::new(&folder, "after", &after)?,
    ];
    println!("a step, call or word: best of {ROUNDS} rounds, before and after in turn, at the best of {PLACES} places of the code to the worst");
    println!("{}", table::compared_heading());
    let countable = instructions::countable();
    for (number, case) in cases::compared().enumerate() {
        let parts = case.parts;
        let case = case.cut(parts);
        let [before, after] = row(&case, number, &sides, countable)?;
        println!("{}", table::compared_line(case.what, &before, &after));
    }
    if !countable {
        println!("no valgrind on the path: instructions are not counted");
    }
    println!(
        "before, {}\nafter, {}",
        size::row(before),
        size::row(&after)
    );
    Ok(())
}

/// Both sides of a row.
fn row(
    case: &Case,
    number: usize,
    sides: &[Placed; 2],
    countable: bool,
) -> Result<[Side; 2], String> {
    let [before, after] = times(case, sides)?;
    let count = |side: &Placed| {
        let counted = countable.then(|| instructions::a_step(&side.objects[0], number));
        counted.transpose()
    };
    Ok([
        side(&before, count(&sides[0])?),
        side(&after, count(&sides[1])?),
    ])
}

fn side(times: &[f64; PLACES], instructions: Option<f64>) -> Side {
    Side {
        best: times.iter().copied().fold(f64::MAX, f64::min),
        worst: times.iter().copied().fold(0.0, f64::max),
        instructions,
    }
}

/// The best rounds of both sides at each place.
fn times(case: &Case, sides: &[Placed; 2]) -> Result<[[f64; PLACES]; 2], String> {
    let mut best = [[f64::MAX; PLACES]; 2];
    for turn in 0..ROUNDS * PLACES {
        // Each side is the first in every other round, and all depths are met at each place.
        let (place, rounds) = (turn % PLACES, turn / PLACES);
        let (first, second) = (rounds % 2, 1 - rounds % 2);
        let depth = rounds / 2 % DEPTHS;
        let one = round_below(depth, &sides[first].loaded[place], case);
        let other = round_below(depth, &sides[second].loaded[place], case);
        if !one.agrees(&other) {
            return Err(format!("{}: before and after differ", case.what));
        }
        best[first][place] = best[first][place].min(one.nanoseconds);
        best[second][place] = best[second][place].min(other.nanoseconds);
    }
    Ok(best)
}

/// A round at so many depths of the stack below this one.
#[inline(never)]
fn round_below(depth: usize, library: &Library<Loaded>, case: &Case) -> Round {
    let between = black_box([0_u8; DEEPER]);
    let round = match depth {
        0 => round(library, case),
        _ => round_below(depth - 1, library, case),
    };
    black_box(&between);
    round
}
