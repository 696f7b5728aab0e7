//! The state, its registers ("Memory, sections, registers"), the start state
//! ("One step") and the frame (refusal 4 of "Callers").

use crate::arithmetic::GIE;
use crate::memory::{read_word, Layout};

/// "r0 is the program counter (pc), r1 the stack pointer (sp), r2 the status
/// (sr); r3 reads 0 and ignores writes."
pub const PC: usize = 0;
pub const SP: usize = 1;
pub const SR: usize = 2;
pub const ZERO: usize = 3;

/// The word that reset takes pc from, and the previous address after it.
pub const VECTOR: u16 = 0xFFFE;

/// What a padded interrupt holds of the visit to the enclave module:
/// "Registers, previous address and age are held."
#[derive(Clone, Copy, Debug, PartialEq, Eq)]
pub struct SavedContext {
    pub registers: [u16; 16],
    pub previous: u16,
    pub age: u64,
}

#[derive(Clone, Copy, Debug, PartialEq, Eq)]
pub struct Machine {
    pub registers: [u16; 16],
    pub clock: u64,
    /// The pending slot: the stamp in it.
    pub slot: Option<u64>,
    pub alarm: Option<u64>,
    pub halted: bool,
    /// The previous instruction's address.
    pub previous: u16,
    /// The visit held, if one is.
    pub held: Option<SavedContext>,
}

impl Machine {
    /// "The start state is the same at clock 0, no alarm." Reset's registers:
    /// all 0, "pc becomes the word at FFFE less its bit 0, the previous
    /// address is FFFE".
    pub(crate) fn start_state(memory: &[u8]) -> Machine {
        let mut registers = [0; 16];
        registers[PC] = read_word(memory, VECTOR) & 0xFFFE;
        Machine {
            registers,
            clock: 0,
            slot: None,
            alarm: None,
            halted: false,
            previous: VECTOR,
            held: None,
        }
    }

    /// "r3 [...] ignores writes. Writes to r0 and r1 drop bit 0." "Code inside
    /// can't alter GIE: any write of sr from there keeps it."
    pub(crate) fn write_register(&mut self, inside: bool, register: usize, word: u16) {
        self.registers[register] = match register {
            PC | SP => word & 0xFFFE,
            SR if inside => (word & !GIE) | (self.registers[SR] & GIE),
            ZERO => 0,
            _ => word,
        };
    }

    /// Refusal 4: "pc, sp or previous address odd; r3 not 0; slot stamp 0 or
    /// above clock; alarm not above clock; held age above 6, held pc or sp
    /// odd, r3 not 0, GIE clear, or previous address not inside or odd".
    pub fn frame_valid(&self, layout: &Layout) -> bool {
        let odd = |word: u16| word % 2 == 1;
        if odd(self.registers[PC]) || odd(self.registers[SP]) || odd(self.previous) {
            return false;
        }
        if self.registers[ZERO] != 0 {
            return false;
        }
        if let Some(stamp) = self.slot {
            if stamp == 0 || stamp > self.clock {
                return false;
            }
        }
        if let Some(alarm) = self.alarm {
            if alarm <= self.clock {
                return false;
            }
        }
        if let Some(held) = &self.held {
            if held.age > 6 {
                return false;
            }
            if odd(held.registers[PC]) || odd(held.registers[SP]) {
                return false;
            }
            if held.registers[ZERO] != 0 {
                return false;
            }
            if held.registers[SR] & GIE == 0 {
                return false;
            }
            if !layout.inside(held.previous) || odd(held.previous) {
                return false;
            }
        }
        true
    }
}
