//! The status register.

use std::fmt;

/// The bits of the status register r2.
#[derive(Clone, Copy, Debug, PartialEq, Eq, Hash)]
pub struct Status(u16);

impl Status {
    // The status of a register's value.
    pub(crate) const fn of(bits: u16) -> Status {
        Status(bits)
    }

    /// The whole word.
    #[must_use]
    pub const fn bits(self) -> u16 {
        self.0
    }

    /// C, bit 0: the result was not zero.
    #[must_use]
    pub const fn carry(self) -> bool {
        self.0 & 1 != 0
    }

    /// Z, bit 1: the result was zero.
    #[must_use]
    pub const fn zero(self) -> bool {
        self.0 & 2 != 0
    }

    /// N, bit 2: bit 15 of the result.
    #[must_use]
    pub const fn negative(self) -> bool {
        self.0 & 4 != 0
    }

    /// GIE, bit 3: interrupts are allowed.
    #[must_use]
    pub const fn interrupts_allowed(self) -> bool {
        self.0 & 8 != 0
    }

    /// V, bit 8: signed overflow.
    #[must_use]
    pub const fn overflow(self) -> bool {
        self.0 & 0x100 != 0
    }
}

impl fmt::UpperHex for Status {
    fn fmt(&self, f: &mut fmt::Formatter<'_>) -> fmt::Result {
        fmt::UpperHex::fmt(&self.0, f)
    }
}
