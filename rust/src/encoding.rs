//! An instruction as the four numbers that the library is lent: row, source, destination, constant.

use crate::{Instruction, Operand, Operation, Register};

impl Operation {
    // Its row in the table of instruction words.
    fn row(self) -> u16 {
        match self {
            Operation::Add => 11,
            Operation::Sub => 12,
            Operation::Cmp => 13,
            Operation::And => 14,
        }
    }
}

impl Instruction {
    // The four numbers, each 0 where the instruction does not have it.
    pub(crate) fn encoded(self) -> [u16; 4] {
        let n = |r: Register| u16::from(r.number());
        match self {
            Instruction::Hlt => [0, 0, 0, 0],
            Instruction::In(d) => [1, 0, n(d), 0],
            Instruction::Out(s) => [2, n(s), 0, 0],
            Instruction::Jz(s) => [3, n(s), 0, 0],
            Instruction::Reti => [4, 0, 0, 0],
            Instruction::Nop => [5, 0, 0, 0],
            Instruction::Jmp(s) => [6, n(s), 0, 0],
            Instruction::Mov(Operand::Register(s), d) => [7, n(s), n(d), 0],
            Instruction::Mov(Operand::Pointed(s), d) => [8, n(s), n(d), 0],
            Instruction::Store(s, d) => [9, n(s), n(d), 0],
            Instruction::Mov(Operand::Constant(w), d) => [10, 0, n(d), w],
            Instruction::Compute(operation, s, d) => [operation.row(), n(s), n(d), 0],
            Instruction::Not(d) => [15, 0, n(d), 0],
        }
    }

    // The instruction of four numbers that the library read.
    pub(crate) fn decoded([row, source, destination, constant]: [u16; 4]) -> Instruction {
        let s = register(source);
        let d = register(destination);
        match row {
            0 => Instruction::Hlt,
            1 => Instruction::In(d),
            2 => Instruction::Out(s),
            3 => Instruction::Jz(s),
            4 => Instruction::Reti,
            5 => Instruction::Nop,
            6 => Instruction::Jmp(s),
            7 => Instruction::Mov(Operand::Register(s), d),
            8 => Instruction::Mov(Operand::Pointed(s), d),
            9 => Instruction::Store(s, d),
            10 => Instruction::Mov(Operand::Constant(constant), d),
            11 => Instruction::Compute(Operation::Add, s, d),
            12 => Instruction::Compute(Operation::Sub, s, d),
            13 => Instruction::Compute(Operation::Cmp, s, d),
            14 => Instruction::Compute(Operation::And, s, d),
            15 => Instruction::Not(d),
            _ => unreachable!("a row is 0 to 15"),
        }
    }
}

// A register that the library told.
fn register(number: u16) -> Register {
    let number = u8::try_from(number).ok();
    number
        .and_then(Register::new)
        .expect("a register is 0 to 15")
}
