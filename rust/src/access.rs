//! The access question.

use crate::raw;
use crate::{Layout, Refusal};

/// What an instruction may do to a byte.
#[derive(Clone, Copy, Debug, Default, PartialEq, Eq, Hash)]
pub struct Rights {
    /// It may be executed after that instruction.
    pub execute: bool,
    /// It may be read.
    pub read: bool,
    /// It may be written.
    pub write: bool,
}

impl Rights {
    // The rights of a sum: execute 1, read 2, write 4.
    fn of_sum(sum: u8) -> Rights {
        Rights {
            execute: sum & 1 != 0,
            read: sum & 2 != 0,
            write: sum & 4 != 0,
        }
    }
}

impl Layout {
    /// What an instruction at `from` may do to the byte at `address`.
    ///
    /// # Panics
    ///
    /// Never, where the library is the one that this version is for.
    #[must_use]
    pub fn access(self, from: u16, address: u16) -> Rights {
        ask(&self.addresses, from, address).expect("the layout was taken by the library")
    }
}

// Asks the library, which refuses a broken layout.
pub(crate) fn ask(addresses: &[u16; 5], from: u16, address: u16) -> Result<Rights, Refusal> {
    let mut sum = 0;
    Refusal::taken(raw::access(addresses, from, address, &mut sum))?;
    Ok(Rights::of_sum(sum))
}
