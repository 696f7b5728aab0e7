//! The timetable of interrupt requests.

use std::borrow::Cow;

use crate::Refusal;

/// The last clock value of which a machine steps, and the last stamp: 2^62.
pub const LAST_CLOCK: u64 = 1 << 62;

/// A timetable has at most this many stamps, and a trace this many records.
pub const MOST_STAMPS: usize = 4096;

/// The stamps at which interrupt requests happen: at most 4,096, strictly rising, each 1 to 2^62.
/// It borrows a slice or owns a vector.
#[derive(Clone, Debug, Default, PartialEq, Eq)]
pub struct Timetable<'a> {
    stamps: Cow<'a, [u64]>,
}

impl<'a> Timetable<'a> {
    /// The timetable of these stamps.
    ///
    /// # Errors
    ///
    /// Refusal *timetable* where they are more than 4,096, not strictly rising, or not 1 to 2^62.
    pub fn new(stamps: impl Into<Cow<'a, [u64]>>) -> Result<Timetable<'a>, Refusal> {
        let stamps = stamps.into();
        if are_stamps(&stamps) {
            Ok(Timetable { stamps })
        } else {
            Err(Refusal::Timetable)
        }
    }

    /// The timetable without stamps.
    #[must_use]
    pub const fn empty() -> Timetable<'a> {
        Timetable {
            stamps: Cow::Borrowed(&[]),
        }
    }

    /// Its stamps.
    #[must_use]
    pub fn stamps(&self) -> &[u64] {
        &self.stamps
    }
}

// They are at most 4,096, strictly rising, each 1 to 2^62.
pub(crate) fn are_stamps(stamps: &[u64]) -> bool {
    let few = stamps.len() <= MOST_STAMPS;
    let in_range = stamps.iter().all(|s| (1..=LAST_CLOCK).contains(s));
    let rising = stamps.windows(2).all(|pair| pair[0] < pair[1]);
    few && in_range && rising
}
