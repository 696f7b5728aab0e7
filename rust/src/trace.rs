//! The trace of words that IN gives.

use std::borrow::Cow;

use crate::timetable::are_stamps;
use crate::Refusal;

/// Words that were logged on a ride: records, each a stamp and its word; at most 4,096, the stamps
/// strictly rising, each 1 to 2^62. It borrows slices or owns vectors.
///
/// Where it has records, IN gives the word of the last one whose stamp is at most the clock at the
/// instruction's start, and 0 before the first. Where it has none, IN gives the clock's low 16 bits.
/// Each stamp is an interrupt request, as those of a [`Timetable`](crate::Timetable) are; one that
/// stands in both counts once.
#[derive(Clone, Debug, Default, PartialEq, Eq)]
pub struct Trace<'a> {
    stamps: Cow<'a, [u64]>,
    words: Cow<'a, [u16]>,
}

impl<'a> Trace<'a> {
    /// The trace of these stamps and words: each stamp's word is the one at its place.
    ///
    /// ```
    /// use enclave::{Refusal, Trace};
    ///
    /// let trace = Trace::new(&[6, 20], &[0x0017, 0x0018])?;
    /// assert_eq!(trace.records().last(), Some((20, 0x0018)));
    /// assert_eq!(Trace::new(&[6, 20], &[0x0017]), Err(Refusal::Trace));
    /// # Ok::<(), Refusal>(())
    /// ```
    ///
    /// # Errors
    ///
    /// Refusal *trace* where stamps and words are not equally many, or the stamps are more than
    /// 4,096, not strictly rising, or not 1 to 2^62.
    pub fn new(
        stamps: impl Into<Cow<'a, [u64]>>,
        words: impl Into<Cow<'a, [u16]>>,
    ) -> Result<Trace<'a>, Refusal> {
        let (stamps, words) = (stamps.into(), words.into());
        if stamps.len() == words.len() && are_stamps(&stamps) {
            Ok(Trace { stamps, words })
        } else {
            Err(Refusal::Trace)
        }
    }

    /// The trace without records: IN gives the clock's low 16 bits, and no request comes of it.
    #[must_use]
    pub const fn empty() -> Trace<'a> {
        Trace {
            stamps: Cow::Borrowed(&[]),
            words: Cow::Borrowed(&[]),
        }
    }

    /// It has no records.
    #[must_use]
    pub fn is_empty(&self) -> bool {
        self.stamps.is_empty()
    }

    /// The stamps of its records.
    #[must_use]
    pub fn stamps(&self) -> &[u64] {
        &self.stamps
    }

    /// The words of its records, as many as its stamps.
    #[must_use]
    pub fn words(&self) -> &[u16] {
        &self.words
    }

    /// Its records: each stamp with its word.
    #[must_use]
    pub fn records(&self) -> impl ExactSizeIterator<Item = (u64, u16)> + '_ {
        let words = self.words.iter().copied();
        self.stamps.iter().copied().zip(words)
    }
}
