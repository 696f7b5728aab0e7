//! The transcript of a run, which the library writes.

use std::fmt;
use std::io;

use crate::raw::Progress;
use crate::{Budget, Machine, Refusal, Timetable, Trace, MEMORY_SIZE};

// The stage at which nothing is left to write.
const COMPLETE: u8 = 2;

// How much `write_to` takes at a time.
const PAGE: usize = 8192;

/// A run whose steps are told line by line, as the bench does: a header, a line for each step, and why
/// the run stopped. [`Machine::transcript`] makes it. It goes on with the machine as its lines are
/// taken, and no further.
#[must_use = "a run makes its steps as the lines of its transcript are taken"]
pub struct Transcript<'a> {
    machine: &'a mut Machine,
    memory: &'a mut [u8; MEMORY_SIZE],
    timetable: &'a Timetable<'a>,
    trace: &'a Trace<'a>,
    progress: Progress,
}

impl Machine {
    /// The transcript of a run of this machine. No step is made before its lines are taken.
    pub fn transcript<'a>(
        &'a mut self,
        memory: &'a mut [u8; MEMORY_SIZE],
        timetable: &'a Timetable<'a>,
        trace: &'a Trace<'a>,
        budget: Budget,
    ) -> Transcript<'a> {
        let progress = Progress {
            budget: budget.steps(),
            ..Progress::default()
        };
        Transcript {
            machine: self,
            memory,
            timetable,
            trace,
            progress,
        }
    }
}

impl Transcript<'_> {
    /// A line is begun only where so many bytes are free.
    pub const LINE_SIZE: usize = 64;

    /// Writes the next lines to the front of `out`, as many as there is room for, and tells how many
    /// bytes they are. It is 0 where the transcript is complete, and where `out` is shorter than
    /// [`LINE_SIZE`](Transcript::LINE_SIZE). Parts of any size give the same bytes, and bytes behind
    /// them stay as they were.
    ///
    /// Nothing of it is refused: a clock above 2^62 ends the transcript with T.
    ///
    /// # Panics
    ///
    /// Never, where the library is the one that this version is for.
    pub fn fill(&mut self, out: &mut [u8]) -> usize {
        let mut written = 0;
        let answer = self.machine.transcribe(
            self.memory,
            self.timetable,
            self.trace,
            &mut self.progress,
            out,
            &mut written,
        );
        Refusal::taken(answer).expect("the library took machine, layout, lists and budget");
        usize::try_from(written).expect("at most what was lent")
    }

    /// The line of the end is written: [`fill`](Transcript::fill) has no more.
    #[must_use]
    pub fn is_complete(&self) -> bool {
        self.progress.stage >= COMPLETE
    }

    /// How many steps were made so far.
    #[must_use]
    pub fn steps(&self) -> u64 {
        self.progress.steps
    }

    /// Writes all lines that are left.
    ///
    /// # Errors
    ///
    /// What writing answers. The machine has then made the steps of some lines that are lost.
    pub fn write_to(&mut self, out: &mut impl io::Write) -> io::Result<()> {
        let mut page = [0; PAGE];
        while !self.is_complete() {
            let filled = self.fill(&mut page);
            out.write_all(&page[..filled])?;
        }
        Ok(())
    }
}

impl fmt::Debug for Transcript<'_> {
    // Without the bytes of memory.
    fn fmt(&self, f: &mut fmt::Formatter<'_>) -> fmt::Result {
        f.debug_struct("Transcript")
            .field("machine", &self.machine)
            .field("timetable", &self.timetable)
            .field("trace", &self.trace)
            .field("progress", &self.progress)
            .finish_non_exhaustive()
    }
}
