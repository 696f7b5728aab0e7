//! Instructions as text, in the notation of document 01's table of instruction words.

use std::fmt;

use crate::{Instruction, Operand, Operation, Register};

// A register's digit in an instruction word.
struct Digit(Register);

impl fmt::Display for Digit {
    fn fmt(&self, f: &mut fmt::Formatter<'_>) -> fmt::Result {
        write!(f, "{:X}", self.0.number())
    }
}

impl fmt::Display for Operation {
    fn fmt(&self, f: &mut fmt::Formatter<'_>) -> fmt::Result {
        f.write_str(match self {
            Operation::Add => "ADD",
            Operation::Sub => "SUB",
            Operation::Cmp => "CMP",
            Operation::And => "AND",
        })
    }
}

impl fmt::Display for Operand {
    fn fmt(&self, f: &mut fmt::Formatter<'_>) -> fmt::Result {
        match *self {
            Operand::Register(s) => write!(f, "{}", Digit(s)),
            Operand::Pointed(s) => write!(f, "@{}", Digit(s)),
            Operand::Constant(w) => write!(f, "#{w:04X}"),
        }
    }
}

impl fmt::Display for Instruction {
    fn fmt(&self, f: &mut fmt::Formatter<'_>) -> fmt::Result {
        match *self {
            Instruction::Hlt => f.write_str("HLT"),
            Instruction::In(d) => write!(f, "IN {}", Digit(d)),
            Instruction::Out(s) => write!(f, "OUT {}", Digit(s)),
            Instruction::Jz(s) => write!(f, "JZ &{}", Digit(s)),
            Instruction::Reti => f.write_str("RETI"),
            Instruction::Nop => f.write_str("NOP"),
            Instruction::Jmp(s) => write!(f, "JMP &{}", Digit(s)),
            Instruction::Mov(operand, d) => write!(f, "MOV {operand} {}", Digit(d)),
            Instruction::Store(s, d) => write!(f, "MOV {} 0({})", Digit(s), Digit(d)),
            Instruction::Compute(operation, s, d) => {
                write!(f, "{operation} {} {}", Digit(s), Digit(d))
            }
            Instruction::Not(d) => write!(f, "NOT {}", Digit(d)),
        }
    }
}
