//! A machine's memory on the heap.

use std::fmt;
use std::ops::{Deref, DerefMut};

use crate::Refusal;

/// Memory has this many bytes.
pub const MEMORY_SIZE: usize = 65536;

/// A memory on the heap. The calls of a machine are lent `[u8; MEMORY_SIZE]`, which this points to,
/// so an array from elsewhere does as well.
#[derive(Clone, PartialEq, Eq)]
pub struct Memory(Box<[u8; MEMORY_SIZE]>);

// Zeros on the heap, made there.
#[expect(
    clippy::unnecessary_box_returns,
    reason = "they are too many for the stack"
)]
pub(crate) fn zeros<T: Clone + Default, const N: usize>() -> Box<[T; N]> {
    let Ok(zeros) = vec![T::default(); N].into_boxed_slice().try_into() else {
        unreachable!("a vector of N has N")
    };
    zeros
}

impl Memory {
    /// A memory of zeros.
    #[must_use]
    pub fn zeroed() -> Memory {
        Memory(zeros())
    }

    /// The word at an address, low byte first; address bit 0 is dropped.
    #[must_use]
    pub fn word(&self, address: u16) -> u16 {
        let low = usize::from(address & !1);
        u16::from_le_bytes([self.0[low], self.0[low + 1]])
    }

    /// Puts a word at an address, low byte first; address bit 0 is dropped.
    pub fn set_word(&mut self, address: u16, word: u16) {
        let low = usize::from(address & !1);
        self.0[low..low + 2].copy_from_slice(&word.to_le_bytes());
    }
}

impl From<Box<[u8; MEMORY_SIZE]>> for Memory {
    fn from(bytes: Box<[u8; MEMORY_SIZE]>) -> Memory {
        Memory(bytes)
    }
}

impl TryFrom<Vec<u8>> for Memory {
    type Error = Refusal;

    /// Refusal *map* where there are not 65,536 bytes.
    fn try_from(bytes: Vec<u8>) -> Result<Memory, Refusal> {
        bytes
            .into_boxed_slice()
            .try_into()
            .map(Memory)
            .map_err(|_| Refusal::Map)
    }
}

impl Deref for Memory {
    type Target = [u8; MEMORY_SIZE];

    fn deref(&self) -> &[u8; MEMORY_SIZE] {
        &self.0
    }
}

impl DerefMut for Memory {
    fn deref_mut(&mut self) -> &mut [u8; MEMORY_SIZE] {
        &mut self.0
    }
}

impl fmt::Debug for Memory {
    // The bytes are too many to show.
    fn fmt(&self, f: &mut fmt::Formatter<'_>) -> fmt::Result {
        f.debug_struct("Memory").finish_non_exhaustive()
    }
}
