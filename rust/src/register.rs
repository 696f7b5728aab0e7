//! Register numbers.

use std::fmt;

/// The number of a register, 0 to 15. As text it is r0 to r15, as document 01 writes it.
#[derive(Clone, Copy, PartialEq, Eq, PartialOrd, Ord, Hash)]
pub struct Register(u8);

impl Register {
    /// r0, the program counter.
    pub const PC: Register = Register(0);
    /// r1, the stack pointer.
    pub const SP: Register = Register(1);
    /// r2, the status.
    pub const SR: Register = Register(2);
    /// r3, which reads 0 and ignores writes.
    pub const ZERO: Register = Register(3);

    /// The register of a number, if it is one of 0 to 15.
    #[must_use]
    pub const fn new(number: u8) -> Option<Register> {
        if number < 16 {
            Some(Register(number))
        } else {
            None
        }
    }

    /// Its number.
    #[must_use]
    pub const fn number(self) -> u8 {
        self.0
    }
}

impl fmt::Display for Register {
    fn fmt(&self, f: &mut fmt::Formatter<'_>) -> fmt::Result {
        write!(f, "r{}", self.0)
    }
}

impl fmt::Debug for Register {
    fn fmt(&self, f: &mut fmt::Formatter<'_>) -> fmt::Result {
        fmt::Display::fmt(self, f)
    }
}
