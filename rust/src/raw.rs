//! The exported functions on plain numbers. Each is safe to call with any of them, since every value
//! is either meant or refused: it answers 0, or the number of the refusal, which leaves all that was
//! lent as it came, but for the line that the sheet reader tells ([`Places::read`]). See
//! `include/enclave.h` for what the numbers mean.

use crate::ffi;
use crate::memory::zeros;
use crate::{MEMORY_SIZE, MOST_STAMPS};

/// The five addresses of a layout: code start and end, data start and end, service address.
pub type Addresses = [u16; 5];

/// The lists that a call is lent: the stamps of the timetable, and the stamps and the words of the
/// trace. [`Lists::default`] has nothing in any.
#[derive(Clone, Copy, Debug, Default, PartialEq, Eq, Hash)]
pub struct Lists<'a> {
    /// The timetable.
    pub stamps: &'a [u64],
    /// The stamps of the trace's records.
    pub trace_stamps: &'a [u64],
    /// Their words; where they are not as many, the call is refused.
    pub trace_words: &'a [u16],
}

/// A machine in numbers.
#[derive(Clone, Debug, Default, PartialEq, Eq, Hash)]
pub struct Numbers {
    /// r0 to r15.
    pub registers: [u16; 16],
    /// The registers of the held visit.
    pub saved: [u16; 16],
    /// Previous address, halted, held, held previous address, held age.
    pub control: [u16; 5],
    /// Clock, pending stamp, alarm; 0 for no stamp.
    pub time: [u64; 3],
}

/// How far a transcript has come. It begins with the run's budget and 0 in the other fields.
#[derive(Clone, Debug, Default, PartialEq, Eq, Hash)]
pub struct Progress {
    /// The budget of the whole run.
    pub budget: u64,
    /// How many steps were made so far.
    pub steps: u64,
    /// What comes next: 0 the header, 1 steps, any other value nothing.
    pub stage: u8,
}

// In each function the pointers come from references to what their types say, exclusive ones where
// the library writes, so what they point to is apart; a size beside a pointer is its slice's. They may
// be compiled into their callers: else a call's lists are written to memory and read back at once.
impl Numbers {
    /// The start state of a memory.
    #[inline]
    pub fn start(&mut self, memory: &[u8]) -> u8 {
        // SAFETY: as above.
        unsafe {
            ffi::enclave_start(
                &raw mut self.registers,
                &raw mut self.saved,
                &raw mut self.control,
                &raw mut self.time,
                memory.as_ptr(),
                memory.len(),
            )
        }
    }

    /// One step: its kind, and its cause if it is a reset.
    #[inline]
    pub fn step(
        &mut self,
        memory: &mut [u8],
        layout: &Addresses,
        lists: Lists<'_>,
        kind: &mut u8,
        cause: &mut u8,
    ) -> u8 {
        // SAFETY: as above.
        unsafe {
            ffi::enclave_step(
                &raw mut self.registers,
                &raw mut self.saved,
                &raw mut self.control,
                &raw mut self.time,
                memory.as_mut_ptr(),
                memory.len(),
                layout,
                lists.stamps.as_ptr(),
                lists.stamps.len(),
                lists.trace_stamps.as_ptr(),
                lists.trace_stamps.len(),
                lists.trace_words.as_ptr(),
                lists.trace_words.len(),
                kind,
                cause,
            )
        }
    }

    /// Many steps: why it stopped, and how many they were.
    #[inline]
    pub fn run(
        &mut self,
        memory: &mut [u8],
        layout: &Addresses,
        lists: Lists<'_>,
        budget: u64,
        end: &mut u8,
        steps: &mut u64,
    ) -> u8 {
        // SAFETY: as above.
        unsafe {
            ffi::enclave_run(
                &raw mut self.registers,
                &raw mut self.saved,
                &raw mut self.control,
                &raw mut self.time,
                memory.as_mut_ptr(),
                memory.len(),
                layout,
                lists.stamps.as_ptr(),
                lists.stamps.len(),
                lists.trace_stamps.as_ptr(),
                lists.trace_stamps.len(),
                lists.trace_words.as_ptr(),
                lists.trace_words.len(),
                budget,
                end,
                steps,
            )
        }
    }

    /// Many steps, to a stop address at most: why it stopped, and how many they were.
    #[expect(
        clippy::too_many_arguments,
        reason = "those of run, and the stop address"
    )]
    #[inline]
    pub fn run_to(
        &mut self,
        memory: &mut [u8],
        layout: &Addresses,
        lists: Lists<'_>,
        stop: u16,
        budget: u64,
        end: &mut u8,
        steps: &mut u64,
    ) -> u8 {
        // SAFETY: as above.
        unsafe {
            ffi::enclave_run_to(
                &raw mut self.registers,
                &raw mut self.saved,
                &raw mut self.control,
                &raw mut self.time,
                memory.as_mut_ptr(),
                memory.len(),
                layout,
                lists.stamps.as_ptr(),
                lists.stamps.len(),
                lists.trace_stamps.as_ptr(),
                lists.trace_stamps.len(),
                lists.trace_words.as_ptr(),
                lists.trace_words.len(),
                stop,
                budget,
                end,
                steps,
            )
        }
    }

    /// The next lines of a run's transcript, as many as `out` has room for: how far it has come, and
    /// how many bytes were written.
    #[inline]
    pub fn transcribe(
        &mut self,
        memory: &mut [u8],
        layout: &Addresses,
        lists: Lists<'_>,
        progress: &mut Progress,
        out: &mut [u8],
        written: &mut u64,
    ) -> u8 {
        // SAFETY: as above.
        unsafe {
            ffi::enclave_transcribe(
                &raw mut self.registers,
                &raw mut self.saved,
                &raw mut self.control,
                &raw mut self.time,
                memory.as_mut_ptr(),
                memory.len(),
                layout,
                lists.stamps.as_ptr(),
                lists.stamps.len(),
                lists.trace_stamps.as_ptr(),
                lists.trace_stamps.len(),
                lists.trace_words.as_ptr(),
                lists.trace_words.len(),
                progress.budget,
                &raw mut progress.stage,
                &raw mut progress.steps,
                out.as_mut_ptr(),
                out.len(),
                written,
            )
        }
    }
}

/// The number of the first rule that a layout breaks, 1 to 4, or 0. Nothing is refused.
#[must_use]
#[inline]
pub fn fault(layout: &Addresses) -> u8 {
    // SAFETY: as above.
    unsafe { ffi::enclave_fault(layout) }
}

/// What an instruction at `from` may do to the byte at `address`: execute 1, read 2, write 4, or a
/// sum of those.
#[inline]
pub fn access(layout: &Addresses, from: u16, address: u16, rights: &mut u8) -> u8 {
    // SAFETY: as above.
    unsafe { ffi::enclave_access(layout, from, address, rights) }
}

/// The instruction that two words begin with, as row, source, destination and constant, and its
/// length in words.
#[inline]
pub fn read(first: u16, second: u16, fields: &mut [u16; 4], length: &mut u8) -> u8 {
    // SAFETY: as above.
    unsafe { ffi::enclave_read(first, second, fields, length) }
}

/// The words of an instruction and how many they are; the second is left alone where there is none.
#[inline]
pub fn write(fields: &[u16; 4], first: &mut u16, second: &mut u16, length: &mut u8) -> u8 {
    // SAFETY: as above.
    unsafe { ffi::enclave_write(fields, first, second, length) }
}

/// Where a sheet is read into.
#[derive(Clone, Debug, PartialEq, Eq)]
pub struct Places {
    /// Memory.
    pub memory: Box<[u8; MEMORY_SIZE]>,
    /// The timetable, at the front.
    pub stamps: Box<[u64; MOST_STAMPS]>,
    /// The stamps of the trace's records, at the front.
    pub trace_stamps: Box<[u64; MOST_STAMPS]>,
    /// Their words, at the front.
    pub trace_words: Box<[u16; MOST_STAMPS]>,
    /// The layout.
    pub layout: Addresses,
    /// How many stamps the timetable has.
    pub count: u64,
    /// How many records the trace has.
    pub records: u64,
    /// The budget.
    pub budget: u64,
}

impl Places {
    /// Places with 0 in each.
    #[must_use]
    pub fn zeroed() -> Places {
        Places {
            memory: zeros(),
            stamps: zeros(),
            trace_stamps: zeros(),
            trace_words: zeros(),
            layout: [0; 5],
            count: 0,
            records: 0,
            budget: 0,
        }
    }

    /// What a sheet sets up. A refusal writes its line alone.
    pub fn read(&mut self, sheet: &[u8], line: &mut u64) -> u8 {
        // SAFETY: as above.
        unsafe {
            ffi::enclave_read_sheet(
                sheet.as_ptr(),
                sheet.len(),
                &raw mut *self.memory,
                &raw mut *self.stamps,
                &raw mut *self.trace_stamps,
                &raw mut *self.trace_words,
                &raw mut self.layout,
                &raw mut self.count,
                &raw mut self.records,
                &raw mut self.budget,
                line,
            )
        }
    }
}
