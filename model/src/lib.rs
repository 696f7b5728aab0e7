//! A separate, literal interpreter of the machine of document 01, with the
//! ride trace and the stop address of document 02, requests a and b.
//!
//! One module a paragraph, nothing clever. Quotations are from document 01,
//! those on trace and stop address from document 02. It was written from them
//! and from the readings of them that stand in docs/DECISIONS.md, not from
//! crates/.
//! Build with cargo, or:
//!
//! ```text
//! rustc --edition 2021 -O --crate-type rlib --crate-name model src/lib.rs --out-dir OUT
//! rustc --edition 2021 -O src/bin/bench.rs --extern model=OUT/libmodel.rlib -o OUT/bench
//! (so also the other files of src/bin, each of which writes a program's expected output)
//! rustc --edition 2021 -O --test --crate-name model src/lib.rs -o OUT/tests
//! ```
//!
//! Readings that the modules name, where document 01 leaves room:
//!
//! - sides: a first word in code has its second in code; a first word outside
//!   has its second outside, neither in code nor in data.
//! - refusals: start takes 1; step 1 2 3 10 4 6; run 1 2 3 10 4 5 11 6; access
//!   2. They come before the definition, on a halted machine too; 11 only where
//!   a stop address is given.
//! - no stack: RETI while a visit is held reads no stack, so reset 7 does not
//!   come up.
//! - flags: r2 as a destination takes the result first, then C Z N V are laid
//!   over it; its other bits are storage.
//! - bytes: access is by the byte; code start + 1 is other code.
//! - stop address: it is the state's pc before a step that is compared, also
//!   at the first instruction of a service or after a reset; an address in a
//!   section is taken.
//! - writing: what reading never gives is refused (9).
#![forbid(unsafe_code)]

mod arithmetic;
mod calls;
mod instruction;
mod memory;
mod sheet;
mod state;
mod step;
mod time;

#[cfg(test)]
mod tests;

pub use arithmetic::{compute, compute_not, C, GIE, N, V, Z};
pub use calls::{End, Stop, CLOCK_LIMIT, MOST_STEPS};
pub use instruction::{
    begins, cycles, decode, encode, parts, words, Instruction, Operand, Operation,
};
pub use memory::{read_word, write_word, Layout, Right, MEMORY_BYTES};
pub use sheet::{bench, read_sheet, Sheet};
pub use state::{Machine, SavedContext, PC, SP, SR, VECTOR, ZERO};
pub use step::Outcome;
pub use time::{timetable_valid, trace_valid, Trace, LAST_STAMP, MOST_STAMPS, NO_TRACE};
