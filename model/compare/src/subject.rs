//! What both sides are to the comparison: one table of the calls, over plain numbers.

use crate::rides::Ride;

/// "Memory is 65,536 bytes."
pub const MEMORY_BYTES: usize = 65_536;
/// "Clock above 2^62."
pub const CLOCK_LIMIT: u64 = 1 << 62;
/// GIE, bit 3 of the status.
pub const GIE: u16 = 8;
/// An answer that no call may give: the library altered something in a refused call.
pub const TOUCHED: u8 = 255;

pub const PC: usize = 0;
pub const SP: usize = 1;
pub const SR: usize = 2;
pub const ZERO: usize = 3;

/// The five addresses: code start and end, data start and end, service address.
pub type Addresses = [u16; 5];

/// The state of a machine in the library's fields.
#[derive(Clone, Copy, Debug, PartialEq, Eq)]
pub struct State {
    pub registers: [u16; 16],
    pub saved: [u16; 16],
    pub previous: u16,
    pub halted: u16,
    pub held: u16,
    pub held_previous: u16,
    pub held_age: u16,
    pub clock: u64,
    /// The pending stamp, 0 for none.
    pub slot: u64,
    /// The alarm's stamp, 0 for none.
    pub alarm: u64,
}

impl State {
    /// The same value in each field.
    pub fn filled(word: u16) -> State {
        State {
            registers: [word; 16],
            saved: [word; 16],
            previous: word,
            halted: word,
            held: word,
            held_previous: word,
            held_age: word,
            clock: word as u64,
            slot: word as u64,
            alarm: word as u64,
        }
    }

    /// Whether an interrupt is allowed.
    pub fn allowed(&self) -> bool {
        self.registers[SR] & GIE != 0
    }
}

/// What a sheet sets up.
#[derive(Clone, Debug, PartialEq, Eq)]
pub struct Setup {
    pub layout: Addresses,
    pub memory: Vec<u8>,
    pub stamps: Vec<u64>,
    pub ride: Ride,
    pub budget: u64,
}

/// A ride trace as it is lent: a record is a stamp with the word at its place.
#[derive(Clone, Copy, PartialEq, Eq)]
pub struct Records<'a> {
    pub stamps: &'a [u64],
    pub words: &'a [u16],
}

impl Records<'_> {
    /// How many records have a stamp of at most a clock value.
    pub fn passed(self, clock: u64) -> usize {
        self.stamps.partition_point(|&stamp| stamp <= clock)
    }
}

/// What a step or a run is lent beside the state and the memory.
#[derive(Clone, Copy)]
pub struct Lent<'a> {
    pub layout: &'a Addresses,
    pub stamps: &'a [u64],
    pub records: Records<'a>,
}

impl Lent<'_> {
    /// The first stamp of timetable and trace in a stretch of the clock: above `from`, at most
    /// `to`.
    pub fn first_stamp(self, from: u64, to: u64) -> Option<u64> {
        let first = |stamps: &[u64]| {
            let place = stamps.partition_point(|&stamp| stamp <= from);
            stamps.get(place).copied()
        };
        let both = [first(self.stamps), first(self.records.stamps)];
        both.into_iter()
            .flatten()
            .filter(|&stamp| stamp <= to)
            .min()
    }
}

/// Kind and cause of a step.
pub type Stepped = Result<(u8, u8), u8>;
/// End and count of a run.
pub type Ran = Result<(u8, u64), u8>;
/// The fields of an instruction and its length.
pub type Read = Result<([u16; 4], u8), u8>;
/// The words of an instruction.
pub type Written = Result<(u16, Option<u16>), u8>;
/// What a sheet sets up, or the refusal and its line.
pub type SheetRead = Result<Setup, (u8, u64)>;

/// The calls; the error is the number of the refusal.
pub struct Subject {
    pub start: fn(&[u8]) -> Result<State, u8>,
    pub step: fn(&mut State, &mut [u8], Lent) -> Stepped,
    pub run: fn(&mut State, &mut [u8], Lent, u64) -> Ran,
    /// A run with a stop address, which stands before the budget.
    pub run_to: fn(&mut State, &mut [u8], Lent, u16, u64) -> Ran,
    pub access: fn(&Addresses, u16, u16) -> Result<u8, u8>,
    pub read: fn(u16, u16) -> Read,
    pub write: fn(&[u16; 4]) -> Written,
    pub read_sheet: fn(&[u8]) -> SheetRead,
}

/// A word of memory, low byte first, at an even address.
pub fn word_at(memory: &[u8], address: u16) -> u16 {
    let low = (address & 0xFFFE) as usize;
    u16::from_le_bytes([memory[low], memory[low + 1]])
}

/// Puts a word into memory.
pub fn put_word(memory: &mut [u8], address: u16, word: u16) {
    let low = (address & 0xFFFE) as usize;
    memory[low..low + 2].copy_from_slice(&word.to_le_bytes());
}

/// Whether an address is in the code section.
pub fn inside(layout: &Addresses, address: u16) -> bool {
    layout[0] <= address && address < layout[1]
}

/// Whether an address is in the data section.
pub fn in_data(layout: &Addresses, address: u16) -> bool {
    layout[2] <= address && address < layout[3]
}

/// Whether an address is in neither section.
pub fn outside(layout: &Addresses, address: u16) -> bool {
    !inside(layout, address) && !in_data(layout, address)
}

/// "All are even; each start is below its end; code and data do not overlap; the service address
/// is in neither."
pub fn layout_taken(layout: &Addresses) -> bool {
    let [code_start, code_end, data_start, data_end, service] = *layout;
    layout.iter().all(|address| address % 2 == 0)
        && code_start < code_end
        && data_start < data_end
        && (code_end <= data_start || data_end <= code_start)
        && outside(layout, service)
}
