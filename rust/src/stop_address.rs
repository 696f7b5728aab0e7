//! The stop address of a run.

use std::fmt;

use crate::Refusal;

/// Where a run is to stop: an even address, in any section of the layout or in none.
///
/// [`Machine::run_to`](crate::Machine::run_to) stops before a step whose pc is this address. The
/// address of an instruction's second word is not met while that instruction is executed, since pc is
/// its first word's. As text it is four hexadecimal digits.
#[derive(Clone, Copy, Debug, PartialEq, Eq, PartialOrd, Ord, Hash)]
pub struct StopAddress(u16);

impl StopAddress {
    /// The stop address at this address.
    ///
    /// ```
    /// use enclave::{Refusal, StopAddress};
    ///
    /// assert_eq!(StopAddress::new(0x4404)?.address(), 0x4404);
    /// assert_eq!(StopAddress::new(0x4405), Err(Refusal::Landmark));
    /// # Ok::<(), Refusal>(())
    /// ```
    ///
    /// # Errors
    ///
    /// Refusal *landmark* where it is odd: pc never is.
    pub const fn new(address: u16) -> Result<StopAddress, Refusal> {
        if address % 2 == 0 {
            Ok(StopAddress(address))
        } else {
            Err(Refusal::Landmark)
        }
    }

    /// Its address.
    #[must_use]
    pub const fn address(self) -> u16 {
        self.0
    }
}

impl fmt::Display for StopAddress {
    fn fmt(&self, f: &mut fmt::Formatter<'_>) -> fmt::Result {
        write!(f, "{:04X}", self.0)
    }
}
