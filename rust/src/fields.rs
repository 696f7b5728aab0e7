//! The state of a machine, field by field.

use std::num::NonZeroU64;

/// All that a machine is beside its memory and its layout. [`Machine::fields`] tells it, to be
/// kept; [`Machine::from_fields`] takes it up again.
///
/// [`Machine::fields`]: crate::Machine::fields
/// [`Machine::from_fields`]: crate::Machine::from_fields
#[derive(Clone, Debug, PartialEq, Eq, Hash)]
pub struct MachineFields {
    /// r0 to r15. pc and sp are even, r3 is 0.
    pub registers: [u16; 16],
    /// The previous instruction's address; even.
    pub previous: u16,
    /// Cycles from the start.
    pub clock: u64,
    /// The stamp of the pending request; not above the clock.
    pub pending: Option<NonZeroU64>,
    /// The stamp of the alarm; above the clock.
    pub alarm: Option<NonZeroU64>,
    /// The visit of the enclave module that an interrupt holds.
    pub held: Option<SavedContext>,
    /// The machine is halted.
    pub halted: bool,
}

/// What a padded interrupt saves of the enclave module, to return with it.
#[derive(Clone, Debug, PartialEq, Eq, Hash)]
pub struct SavedContext {
    /// r0 to r15. pc and sp are even, r3 is 0, GIE is set.
    pub registers: [u16; 16],
    /// The previous instruction's address; even and inside.
    pub previous: u16,
    /// The request's age at the interrupt, which is the padding after return; at most 6.
    pub age: u8,
}
