//! "Instruction words": decode, encode, cycles and lengths.

#[derive(Clone, Copy, Debug, PartialEq, Eq)]
pub enum Operand {
    Register(u8),
    Pointed(u8),
    Constant(u16),
}

#[derive(Clone, Copy, Debug, PartialEq, Eq)]
pub enum Operation {
    Add,
    Sub,
    Cmp,
    And,
}

#[derive(Clone, Copy, Debug, PartialEq, Eq)]
pub enum Instruction {
    Hlt,
    /// Destination.
    In(u8),
    /// Source.
    Out(u8),
    /// Source.
    Jz(u8),
    Reti,
    Nop,
    /// Source.
    Jmp(u8),
    /// Operand, destination.
    Mov(Operand, u8),
    /// MOV s 0(d): source, register with the address.
    Store(u8, u8),
    /// Operation, source, destination.
    Compute(Operation, u8, u8),
    /// Destination.
    Not(u8),
}

use Instruction::*;
use Operand::*;
use Operation::*;

/// The column "cycles".
pub fn cycles(instruction: &Instruction) -> u8 {
    match instruction {
        Hlt => 1,
        In(_) => 2,
        Out(_) => 2,
        Jz(_) => 2,
        Reti => 5,
        Nop => 1,
        Jmp(_) => 2,
        Mov(Register(_), _) => 1,
        Mov(Pointed(_), _) => 2,
        Store(_, _) => 4,
        Mov(Constant(_), _) => 2,
        Compute(_, _, _) => 1,
        Not(_) => 2,
    }
}

/// The length in words: how many the column "words" shows.
pub fn words(instruction: &Instruction) -> u8 {
    match instruction {
        Store(_, _) => 2,
        Mov(Constant(_), _) => 2,
        Not(_) => 2,
        _ => 1,
    }
}

/// An instruction by the table: the number of its row, HLT being 0, its s, its d
/// and its constant, each 0 where it has none.
pub fn parts(instruction: &Instruction) -> (u16, u8, u8, u16) {
    match *instruction {
        Hlt => (0, 0, 0, 0),
        In(d) => (1, 0, d, 0),
        Out(s) => (2, s, 0, 0),
        Jz(s) => (3, s, 0, 0),
        Reti => (4, 0, 0, 0),
        Nop => (5, 0, 0, 0),
        Jmp(s) => (6, s, 0, 0),
        Mov(Register(s), d) => (7, s, d, 0),
        Mov(Pointed(s), d) => (8, s, d, 0),
        Store(s, d) => (9, s, d, 0),
        Mov(Constant(w), d) => (10, 0, d, w),
        Compute(Add, s, d) => (11, s, d, 0),
        Compute(Sub, s, d) => (12, s, d, 0),
        Compute(Cmp, s, d) => (13, s, d, 0),
        Compute(And, s, d) => (14, s, d, 0),
        Not(d) => (15, 0, d, 0),
    }
}

/// The instruction that a first word begins; the constant of MOV #w d is left
/// at 0. "All else does not decode."
fn first_word(word: u16) -> Option<Instruction> {
    let digit = |place: u32| ((word >> (4 * place)) % 16) as u8;
    let (top, s, middle, d) = (digit(3), digit(2), digit(1), digit(0));

    // 0001 HLT; 001d IN; 002s OUT; 003s JZ &s.
    if word == 0x0001 {
        return Some(Hlt);
    }
    if (top, s, middle) == (0, 0, 1) {
        return Some(In(d));
    }
    if (top, s, middle) == (0, 0, 2) {
        return Some(Out(d));
    }
    if (top, s, middle) == (0, 0, 3) {
        return Some(Jz(d));
    }
    // 1300 RETI; 4303 NOP.
    if word == 0x1300 {
        return Some(Reti);
    }
    if word == 0x4303 {
        return Some(Nop);
    }
    // 4s00 JMP &s.
    if (top, middle, d) == (4, 0, 0) {
        return Some(Jmp(s));
    }
    // 4s0d MOV s d, but d not 0, not both 3.
    if (top, middle) == (4, 0) && d != 0 && !(s == 3 && d == 3) {
        return Some(Mov(Register(s), d));
    }
    // 4s2d MOV @s d, s not 0, 2, 3.
    if (top, middle) == (4, 2) && s != 0 && s != 2 && s != 3 {
        return Some(Mov(Pointed(s), d));
    }
    // 4s8d 0000 MOV s 0(d), d not 0, 2, 3.
    if (top, middle) == (4, 8) && d != 0 && d != 2 && d != 3 {
        return Some(Store(s, d));
    }
    // 403d w MOV #w d.
    if (top, s, middle) == (4, 0, 3) {
        return Some(Mov(Constant(0), d));
    }
    // 5s0d, 8s0d, 9s0d, Fs0d ADD, SUB, CMP, AND.
    if (top, middle) == (0x5, 0) {
        return Some(Compute(Add, s, d));
    }
    if (top, middle) == (0x8, 0) {
        return Some(Compute(Sub, s, d));
    }
    if (top, middle) == (0x9, 0) {
        return Some(Compute(Cmp, s, d));
    }
    if (top, middle) == (0xF, 0) {
        return Some(Compute(And, s, d));
    }
    // E03d FFFF NOT d.
    if (top, s, middle) == (0xE, 0, 3) {
        return Some(Not(d));
    }
    None
}

/// Whether a first word begins an instruction, and of how many words.
pub fn begins(first: u16) -> Option<u8> {
    first_word(first).map(|instruction| words(&instruction))
}

/// "Reading takes two words and gives the instruction and its length; a
/// second word beyond that length isn't looked at." None is refusal 9.
pub fn decode(first: u16, second: u16) -> Option<(Instruction, u8)> {
    let instruction = match first_word(first)? {
        Mov(Constant(_), d) => Mov(Constant(second), d),
        Store(_, _) if second != 0x0000 => return None,
        Not(_) if second != 0xFFFF => return None,
        other => other,
    };
    Some((instruction, words(&instruction)))
}

/// "Writing gives exactly the instruction's words." None is refusal 9: a
/// register above 15, or what the table leaves out (reading "writing").
pub fn encode(instruction: &Instruction) -> Option<Vec<u16>> {
    let (s, d) = match *instruction {
        Hlt | Reti | Nop => (0, 0),
        In(d) | Not(d) | Mov(Constant(_), d) => (0, d),
        Out(s) | Jz(s) | Jmp(s) => (s, 0),
        Mov(Register(s), d) | Mov(Pointed(s), d) | Store(s, d) | Compute(_, s, d) => (s, d),
    };
    if s > 15 || d > 15 {
        return None;
    }
    let source = 0x0100 * s as u16;
    let last = d as u16;
    match *instruction {
        Hlt => Some(vec![0x0001]),
        In(_) => Some(vec![0x0010 + last]),
        Out(_) => Some(vec![0x0020 + s as u16]),
        Jz(_) => Some(vec![0x0030 + s as u16]),
        Reti => Some(vec![0x1300]),
        Nop => Some(vec![0x4303]),
        Jmp(_) => Some(vec![0x4000 + source]),
        Mov(Register(_), _) if d == 0 || (s == 3 && d == 3) => None,
        Mov(Register(_), _) => Some(vec![0x4000 + source + last]),
        Mov(Pointed(_), _) if s == 0 || s == 2 || s == 3 => None,
        Mov(Pointed(_), _) => Some(vec![0x4020 + source + last]),
        Store(_, _) if d == 0 || d == 2 || d == 3 => None,
        Store(_, _) => Some(vec![0x4080 + source + last, 0x0000]),
        Mov(Constant(constant), _) => Some(vec![0x4030 + last, constant]),
        Compute(Add, _, _) => Some(vec![0x5000 + source + last]),
        Compute(Sub, _, _) => Some(vec![0x8000 + source + last]),
        Compute(Cmp, _, _) => Some(vec![0x9000 + source + last]),
        Compute(And, _, _) => Some(vec![0xF000 + source + last]),
        Not(_) => Some(vec![0xE030 + last, 0xFFFF]),
    }
}
