//! A verified execution model of a 16-bit controller with one enclave module whose interrupts are
//! padded: start, step and run a machine, also to an address, write the transcript of a run, read and
//! write one instruction, ask what a layout allows, read a bench sheet.
//!
//! The work is done by a static library that is built from the proved machine; this crate gives it
//! types, so that most of what the library refuses cannot be said:
//!
//! | refusal | why it does not come up later |
//! |---|---|
//! | map | memory is an array of 65,536 bytes |
//! | fence | a [`Layout`] is made only by [`Layout::new`], which asks the library |
//! | timetable | a [`Timetable`] is made only by [`Timetable::new`] |
//! | trace | a [`Trace`] is made only by [`Trace::new`] |
//! | frame | a [`Machine`] keeps its layout; [`Machine::from_fields`] asks the library |
//! | distance | a [`Budget`] is made only by [`Budget::new`] |
//! | landmark | a [`StopAddress`] is made only by [`StopAddress::new`] |
//!
//! What is left are *clock*, of [`Machine::step`], [`Machine::run`] and [`Machine::run_to`], *word*, of
//! [`Instruction::read`] and [`Instruction::write`], and the refusals of [`Setup::read`].
//!
//! There is no global state: a call works on what it is lent and on nothing else, so the types are
//! `Send` and `Sync` by construction, and threads may run different machines at the same time. The
//! library allocates nothing. In this crate only [`Memory`], [`Timetable`], [`Trace`], [`Setup`] and
//! [`raw::Places`] own memory from the heap, and [`Machine::from_fields`] takes a memory from there
//! while it asks; start, step, run and a transcript allocate nothing.
//!
//! The static library is looked for in `crates/embed/out` of the repository, where `rt lib` in
//! `crates/embed` writes it, or in the folder that the environment variable `ENCLAVE_LIB_DIR` names, by its
//! whole path, while this crate is built.
//!
//! ```
//! use enclave::{Budget, End, Layout, Machine, Memory, Timetable, Trace};
//!
//! let layout = Layout::new(0x8000..0x8008, 0x8100..0x8104, 0x4500)?;
//! let timetable = Timetable::new(&[6])?;
//! let mut memory = Memory::zeroed();
//! memory.set_word(0xFFFE, 0x4400);
//! memory.set_word(0x4400, 0x0001); // HLT
//! let mut machine = Machine::start(layout, &memory);
//! let stop = machine.run(&mut memory, &timetable, &Trace::empty(), Budget::new(20)?)?;
//! assert_eq!((stop.end, stop.steps, machine.clock()), (End::Halted, 1, 1));
//! # Ok::<(), enclave::Refusal>(())
//! ```

#![deny(missing_docs)]
#![deny(unsafe_op_in_unsafe_fn)]

mod access;
mod budget;
mod cycles;
mod encoding;
mod ffi;
mod fields;
mod instruction;
mod layout;
mod machine;
mod memory;
mod notation;
mod outcome;
pub mod raw;
mod refusal;
mod register;
mod rule;
mod sheet;
mod state;
mod status;
mod stop_address;
mod timetable;
mod trace;
mod transcript;

pub use access::Rights;
pub use budget::Budget;
pub use fields::{MachineFields, SavedContext};
pub use instruction::{Instruction, Operand, Operation, Words};
pub use layout::Layout;
pub use machine::{Machine, Stop};
pub use memory::{Memory, MEMORY_SIZE};
pub use outcome::{Cause, End, Kind};
pub use refusal::Refusal;
pub use register::Register;
pub use rule::Rule;
pub use sheet::{Setup, SheetRefusal};
pub use status::Status;
pub use stop_address::StopAddress;
pub use timetable::{Timetable, LAST_CLOCK, MOST_STAMPS};
pub use trace::Trace;
pub use transcript::Transcript;

/// The version of this crate and of `include/enclave.h`, which are one; `CHANGELOG.md` says what each
/// brought.
pub const VERSION: &str = env!("CARGO_PKG_VERSION");
