//! The layout of a controller: its enclave module and its service address.

use std::ops::Range;

use crate::access::ask;
use crate::Refusal;

/// A layout that keeps the rules: all five addresses even, each start below its end, code and data
/// apart, the service address in neither.
#[derive(Clone, Copy, Debug, PartialEq, Eq, Hash)]
pub struct Layout {
    // Code start and end, data start and end, service address, as the library takes them.
    pub(crate) addresses: [u16; 5],
}

impl Layout {
    /// The layout of a code section, a data section and a service address. The library decides.
    ///
    /// # Errors
    ///
    /// Refusal *fence* where a rule is broken; [`Layout::fault`] tells which.
    pub fn new(code: Range<u16>, data: Range<u16>, service: u16) -> Result<Layout, Refusal> {
        let addresses = [code.start, code.end, data.start, data.end, service];
        ask(&addresses, 0, 0)?;
        Ok(Layout { addresses })
    }

    /// The code section of the enclave module.
    #[must_use]
    pub fn code(self) -> Range<u16> {
        self.addresses[0]..self.addresses[1]
    }

    /// The data section of the enclave module.
    #[must_use]
    pub fn data(self) -> Range<u16> {
        self.addresses[2]..self.addresses[3]
    }

    /// The address of the interrupt service routine.
    #[must_use]
    pub fn service(self) -> u16 {
        self.addresses[4]
    }

    /// The entry of the enclave module, which is code start.
    #[must_use]
    pub fn entry(self) -> u16 {
        self.addresses[0]
    }
}
