//! The parts of the comparison that go by index.

use crate::counts::Counts;
use crate::drive::{drive, Sides};
use crate::library::LIBRARY;
use crate::options::{Extent, Options};
use crate::reading;
use crate::secrecy::Pair;
use crate::subjects::real::adapter::SUBJECT;
use crate::world::World;

/// The library and the model.
pub const SIDES: Sides = Sides {
    library: &LIBRARY,
    model: &SUBJECT,
};

/// One part: how many there are, and how one is compared.
pub struct Part {
    pub name: &'static str,
    pub count: fn(&Extent) -> u64,
    pub compare: fn(&Options, u64, &mut Counts) -> Result<(), String>,
}

pub const PARTS: &[Part] = &[
    Part {
        name: "worlds",
        count: |extent| extent.worlds,
        compare: |options, index, counts| drive(SIDES, &World::new(options.seed, index), counts),
    },
    Part {
        name: "pairs",
        count: |extent| extent.pairs,
        compare: |options, index, counts| {
            let pair = Pair::new(options.seed, index);
            let runs = pair.runs(&LIBRARY)?;
            pair.laws(&LIBRARY, &runs, counts)?;
            pair.secrecy(&runs, counts)
        },
    },
    Part {
        name: "sheets",
        count: |extent| extent.sheets,
        compare: |options, index, counts| reading::read(SIDES, options.seed, index, counts),
    },
    Part {
        name: "transcripts",
        count: |extent| extent.transcripts,
        compare: |options, index, counts| match &options.bench {
            Some(program) => reading::bench(program, options.seed, index, counts),
            None => Ok(()),
        },
    },
];
