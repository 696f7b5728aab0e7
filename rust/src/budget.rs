//! The budget of a run.

use crate::Refusal;

/// How many steps a run may make: 0 to 1,000,000.
#[derive(Clone, Copy, Debug, PartialEq, Eq, PartialOrd, Ord, Hash)]
pub struct Budget(u64);

impl Budget {
    /// No step.
    pub const NONE: Budget = Budget(0);

    /// 1,000,000 steps.
    pub const MOST: Budget = Budget(1_000_000);

    /// The budget of so many steps.
    ///
    /// # Errors
    ///
    /// Refusal *distance* above 1,000,000.
    pub const fn new(steps: u64) -> Result<Budget, Refusal> {
        if steps <= Budget::MOST.0 {
            Ok(Budget(steps))
        } else {
            Err(Refusal::Distance)
        }
    }

    /// Its number of steps.
    #[must_use]
    pub const fn steps(self) -> u64 {
        self.0
    }
}
