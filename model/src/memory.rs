//! "Memory, sections, registers": memory, layout and access.

/// "Memory is 65,536 bytes."
pub const MEMORY_BYTES: usize = 65_536;

/// "A word is two bytes, low byte first, at an even address; a word access
/// drops address bit 0."
pub fn read_word(memory: &[u8], address: u16) -> u16 {
    let low = (address & 0xFFFE) as usize;
    memory[low] as u16 + 256 * memory[low + 1] as u16
}

pub fn write_word(memory: &mut [u8], address: u16, word: u16) {
    let low = (address & 0xFFFE) as usize;
    memory[low] = (word % 256) as u8;
    memory[low + 1] = (word / 256) as u8;
}

/// "A layout has five 16-bit addresses." Ends are exclusive.
#[derive(Clone, Copy, Debug, PartialEq, Eq)]
pub struct Layout {
    pub code_start: u16,
    pub code_end: u16,
    pub data_start: u16,
    pub data_end: u16,
    pub service: u16,
}

#[derive(Clone, Copy, Debug, PartialEq, Eq)]
pub enum Right {
    Execute,
    Read,
    Write,
}

/// The five addresses in document 01's order.
impl From<[u16; 5]> for Layout {
    fn from([code_start, code_end, data_start, data_end, service]: [u16; 5]) -> Layout {
        Layout {
            code_start,
            code_end,
            data_start,
            data_end,
            service,
        }
    }
}

impl Layout {
    /// "All are even; each start is below its end; code and data do not
    /// overlap; the service address is in neither."
    pub fn valid(&self) -> bool {
        let all = [
            self.code_start,
            self.code_end,
            self.data_start,
            self.data_end,
            self.service,
        ];
        let all_even = all.iter().all(|address| address % 2 == 0);
        let starts_below = self.code_start < self.code_end && self.data_start < self.data_end;
        let apart = self.code_end <= self.data_start || self.data_end <= self.code_start;
        all_even && starts_below && apart && self.outside(self.service)
    }

    /// "The entry is code start."
    pub fn entry(&self) -> u16 {
        self.code_start
    }

    /// "'Inside' means in the code section."
    pub fn inside(&self, address: u16) -> bool {
        self.code_start <= address && address < self.code_end
    }

    pub fn data(&self, address: u16) -> bool {
        self.data_start <= address && address < self.data_end
    }

    /// "'Outside' memory is all but code and data."
    pub fn outside(&self, address: u16) -> bool {
        !self.inside(address) && !self.data(address)
    }

    /// The access table (reading "bytes").
    pub fn may(&self, from: u16, right: Right, address: u16) -> bool {
        use Right::*;
        if self.inside(from) {
            if address == self.entry() {
                right == Execute
            } else if self.inside(address) {
                right == Execute
            } else if self.data(address) {
                right == Read || right == Write
            } else {
                right == Execute
            }
        } else {
            if address == self.entry() {
                right == Execute
            } else if self.inside(address) {
                false
            } else if self.data(address) {
                false
            } else {
                true
            }
        }
    }

    /// "Callers": "ask whether a layout lets an instruction at one address
    /// execute, read or write the byte at another". Refusal 2.
    pub fn access(&self, from: u16, right: Right, address: u16) -> Result<bool, u8> {
        if !self.valid() {
            return Err(2);
        }
        Ok(self.may(from, right, address))
    }
}
