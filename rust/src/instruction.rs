//! One instruction: read from its words, written as its words.

use crate::raw;
use crate::{Refusal, Register};

/// What a two-register instruction computes; the destination is its left operand.
#[derive(Clone, Copy, Debug, PartialEq, Eq, Hash)]
pub enum Operation {
    /// ADD.
    Add,
    /// SUB: destination minus source.
    Sub,
    /// CMP: as SUB, and stores nothing.
    Cmp,
    /// AND.
    And,
}

/// What MOV moves.
#[derive(Clone, Copy, Debug, PartialEq, Eq, Hash)]
pub enum Operand {
    /// A register: MOV s d.
    Register(Register),
    /// The word that a register points at: MOV @s d.
    Pointed(Register),
    /// A constant: MOV #w d.
    Constant(u16),
}

/// An instruction with its source and then its destination. Some combinations have no words, as MOV
/// of a register to pc; writing refuses those.
///
/// As text it is in the notation of document 01's table of instruction words, where s and d are the
/// register digits of the words and w is four hexadecimal digits: `JMP &5`, `MOV 5 6`, `MOV @5 6`,
/// `MOV 5 0(6)`, `MOV #1234 6`, `NOT A`. The table leaves the operands of IN, OUT, ADD, SUB, CMP and
/// AND out; they follow here in the same way: `IN 5`, `OUT 5`, `ADD 5 6`.
#[derive(Clone, Copy, Debug, PartialEq, Eq, Hash)]
pub enum Instruction {
    /// HLT.
    Hlt,
    /// IN d: the clock's low 16 bits.
    In(Register),
    /// OUT s: sets the alarm.
    Out(Register),
    /// JZ &s.
    Jz(Register),
    /// RETI.
    Reti,
    /// NOP.
    Nop,
    /// JMP &s.
    Jmp(Register),
    /// MOV from an operand to a register.
    Mov(Operand, Register),
    /// MOV s 0(d): a register to the word that another points at.
    Store(Register, Register),
    /// ADD, SUB, CMP or AND s d.
    Compute(Operation, Register, Register),
    /// NOT d.
    Not(Register),
}

/// The words of an instruction.
#[derive(Clone, Copy, Debug, PartialEq, Eq, Hash)]
pub enum Words {
    /// One word.
    One(u16),
    /// A first and a second word.
    Two(u16, u16),
}

impl Words {
    // The words that the library wrote.
    fn told(first: u16, second: u16, length: u8) -> Words {
        match length {
            1 => Words::One(first),
            2 => Words::Two(first, second),
            _ => unreachable!("an instruction has one or two words"),
        }
    }
}

impl Instruction {
    /// The instruction that two words begin with and its length in words. A second word beyond that
    /// length isn't looked at.
    ///
    /// # Errors
    ///
    /// Refusal *word* where the words begin no instruction.
    pub fn read(first: u16, second: u16) -> Result<(Instruction, usize), Refusal> {
        let (mut fields, mut length) = ([0; 4], 0);
        Refusal::taken(raw::read(first, second, &mut fields, &mut length))?;
        Ok((Instruction::decoded(fields), usize::from(length)))
    }

    /// Exactly the instruction's words.
    ///
    /// # Errors
    ///
    /// Refusal *word* where it has none.
    pub fn write(self) -> Result<Words, Refusal> {
        let (mut first, mut second, mut length) = (0, 0, 0);
        let fields = self.encoded();
        Refusal::taken(raw::write(&fields, &mut first, &mut second, &mut length))?;
        Ok(Words::told(first, second, length))
    }
}
