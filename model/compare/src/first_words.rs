//! Counts of one pass over all first words, by the library's own answers: of how many words is the
//! instruction that each begins, and in which row of the table does it stand.

use crate::counts::{Counts, Event};
use crate::subject::Read;

/// How many first words begin no instruction, one of one word, one of two.
pub const BY_LENGTH: [u64; 3] = [63_758, 1_538, 240];

/// How many first words each row of the table has, HLT first.
const BY_ROW: [u64; 16] = [
    1, 16, 16, 16, 1, 1, 16, 239, 208, 208, 16, 256, 256, 256, 256, 16,
];

/// A pass over all first words.
pub struct Pass {
    lengths: [u64; 3],
    rows: [u64; 16],
}

impl Pass {
    pub fn new() -> Pass {
        Pass {
            lengths: [0; 3],
            rows: [0; 16],
        }
    }

    /// Counts a first word once, by the answers to it with several second words.
    pub fn count(&mut self, answers: &[Read]) -> Result<(), String> {
        let mut taken = answers.iter().flatten();
        let Some((fields, length)) = taken.next() else {
            self.lengths[0] += 1;
            return Ok(());
        };
        if taken.any(|(others, other)| (others[0], other) != (fields[0], length)) {
            return Err("is read in two rows, or in two lengths".into());
        }
        if !(1..=2).contains(length) || fields[0] > 15 {
            return Err(format!("is read in row {}, length {length}", fields[0]));
        }
        self.lengths[*length as usize] += 1;
        self.rows[fields[0] as usize] += 1;
        Ok(())
    }

    /// The counts at the end of the pass must be those of document 01's table.
    pub fn end(&self, counts: &mut Counts) -> Result<(), String> {
        if (self.lengths, self.rows) != (BY_LENGTH, BY_ROW) {
            let (lengths, rows) = (self.lengths, self.rows);
            return Err(format!(
                "first words of 0, 1, 2 words: {lengths:?}; by row: {rows:?}"
            ));
        }
        let events = [Event::NoWord, Event::OneWord, Event::TwoWords];
        for (event, times) in events.into_iter().zip(self.lengths) {
            counts.events(event, times);
        }
        counts.first_words(&self.rows);
        Ok(())
    }
}
