//! How long an instruction takes.

use crate::Instruction;

// Cycles by row: HLT, IN, OUT, JZ, RETI, NOP, JMP, MOV, MOV @, MOV 0(), MOV #, ADD, SUB, CMP, AND, NOT.
const CYCLES: [u8; 16] = [1, 2, 2, 2, 5, 1, 2, 1, 2, 4, 2, 1, 1, 1, 1, 2];

impl Instruction {
    /// Its cycles in document 01's table of instruction words, by its row alone. A step takes as many,
    /// and more where an interrupt is served or a held visit resumed with it; a reset takes 4 in their
    /// place.
    #[must_use]
    pub fn cycles(self) -> u64 {
        let [row, ..] = self.encoded();
        CYCLES[usize::from(row)].into()
    }
}
