//! The exported functions as they are: numbers and lent memory, with no type that keeps them right.
//! `include/enclave.h` says what each field means.
//!
//! Each function but `enclave_fault` answers 0 or the number of a [`Refusal`](crate::Refusal), which leaves everything
//! that was lent as it came, but for the line that the sheet reader tells. Any number in any field is
//! either meant or refused.
//!
//! # Safety
//!
//! Of every function: each pointer is aligned, not null, and points to as much as its type or the
//! size beside it says; what a call is lent to write overlaps nothing else that it is lent. A
//! pointer that goes with size 0 may dangle.

extern "C" {
    /// The start state of a memory. Refusal 1.
    ///
    /// # Safety
    ///
    /// As of the module; `memory` points to `size` bytes.
    pub fn enclave_start(
        registers: *mut [u16; 16],
        saved: *mut [u16; 16],
        control: *mut [u16; 5],
        time: *mut [u64; 3],
        memory: *const u8,
        size: usize,
    ) -> u8;

    /// One step: the letter of its kind, and the number of its cause, 0 where it is no reset.
    /// Refusals 1, 2, 3, 10, 4, 6, in this order.
    ///
    /// # Safety
    ///
    /// As of the module; `memory` points to `size` bytes, `stamps` to `count` stamps, `trace_stamps` to
    /// `trace_count` stamps, `trace_words` to `word_count` words.
    pub fn enclave_step(
        registers: *mut [u16; 16],
        saved: *mut [u16; 16],
        control: *mut [u16; 5],
        time: *mut [u64; 3],
        memory: *mut u8,
        size: usize,
        layout: *const [u16; 5],
        stamps: *const u64,
        count: usize,
        trace_stamps: *const u64,
        trace_count: usize,
        trace_words: *const u16,
        word_count: usize,
        kind: *mut u8,
        cause: *mut u8,
    ) -> u8;

    /// Many steps: the letter of why they stopped and how many they were. Refusals 1, 2, 3, 10, 4, 5, 6,
    /// in this order.
    ///
    /// # Safety
    ///
    /// As of the module; `memory` points to `size` bytes, `stamps` to `count` stamps, `trace_stamps` to
    /// `trace_count` stamps, `trace_words` to `word_count` words.
    pub fn enclave_run(
        registers: *mut [u16; 16],
        saved: *mut [u16; 16],
        control: *mut [u16; 5],
        time: *mut [u64; 3],
        memory: *mut u8,
        size: usize,
        layout: *const [u16; 5],
        stamps: *const u64,
        count: usize,
        trace_stamps: *const u64,
        trace_count: usize,
        trace_words: *const u16,
        word_count: usize,
        budget: u64,
        end: *mut u8,
        steps: *mut u64,
    ) -> u8;

    /// The same, also stopped where pc is `stop` before a step: the letter is then `A`. Refusals 1, 2,
    /// 3, 10, 4, 5, 11, 6, in this order.
    ///
    /// # Safety
    ///
    /// As of the module; `memory` points to `size` bytes, `stamps` to `count` stamps, `trace_stamps` to
    /// `trace_count` stamps, `trace_words` to `word_count` words.
    pub fn enclave_run_to(
        registers: *mut [u16; 16],
        saved: *mut [u16; 16],
        control: *mut [u16; 5],
        time: *mut [u64; 3],
        memory: *mut u8,
        size: usize,
        layout: *const [u16; 5],
        stamps: *const u64,
        count: usize,
        trace_stamps: *const u64,
        trace_count: usize,
        trace_words: *const u16,
        word_count: usize,
        stop: u16,
        budget: u64,
        end: *mut u8,
        steps: *mut u64,
    ) -> u8;

    /// The next lines of a run's transcript, as many as there is room for, and how many bytes they
    /// are. `stage` is 0 where the header comes next, 1 where steps do, else nothing. Refusals 1, 2, 3,
    /// 10, 4, 5, in this order.
    ///
    /// # Safety
    ///
    /// As of the module; `memory` points to `memory_size` bytes, `stamps` to `count` stamps,
    /// `trace_stamps` to `trace_count` stamps, `trace_words` to `word_count` words, `out` to `out_size`
    /// bytes.
    pub fn enclave_transcribe(
        registers: *mut [u16; 16],
        saved: *mut [u16; 16],
        control: *mut [u16; 5],
        time: *mut [u64; 3],
        memory: *mut u8,
        memory_size: usize,
        layout: *const [u16; 5],
        stamps: *const u64,
        count: usize,
        trace_stamps: *const u64,
        trace_count: usize,
        trace_words: *const u16,
        word_count: usize,
        budget: u64,
        stage: *mut u8,
        steps: *mut u64,
        out: *mut u8,
        out_size: usize,
        written: *mut u64,
    ) -> u8;

    /// The number of the first rule that a layout breaks, 0 for none. Nothing is refused.
    ///
    /// # Safety
    ///
    /// As of the module.
    pub fn enclave_fault(layout: *const [u16; 5]) -> u8;

    /// What an instruction at `from` may do to the byte at `address`: execute 1, read 2, write 4,
    /// or a sum of these. Refusal 2.
    ///
    /// # Safety
    ///
    /// As of the module.
    pub fn enclave_access(layout: *const [u16; 5], from: u16, address: u16, rights: *mut u8) -> u8;

    /// The instruction that two words begin with and its length in words. Refusal 9.
    ///
    /// # Safety
    ///
    /// As of the module.
    pub fn enclave_read(first: u16, second: u16, fields: *mut [u16; 4], length: *mut u8) -> u8;

    /// Exactly the instruction's words; `second` is left alone where there is none. Refusal 9.
    ///
    /// # Safety
    ///
    /// As of the module.
    pub fn enclave_write(
        fields: *const [u16; 4],
        first: *mut u16,
        second: *mut u16,
        length: *mut u8,
    ) -> u8;

    /// What a sheet sets up. Refusals 2, 3, 5, 7, 8, 10, which write `line` alone.
    ///
    /// # Safety
    ///
    /// As of the module; `sheet` points to `size` bytes.
    pub fn enclave_read_sheet(
        sheet: *const u8,
        size: usize,
        memory: *mut [u8; 65536],
        stamps: *mut [u64; 4096],
        trace_stamps: *mut [u64; 4096],
        trace_words: *mut [u16; 4096],
        layout: *mut [u16; 5],
        count: *mut u64,
        records: *mut u64,
        budget: *mut u64,
        line: *mut u64,
    ) -> u8;
}
