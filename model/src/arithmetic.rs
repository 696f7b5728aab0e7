//! "Instruction words", last paragraph: arithmetic and flags.

use crate::instruction::Operation;

/// "Status bits by the guide: C 0, Z 1, N 2, GIE (interrupts allowed) 3, V 8."
pub const C: u16 = 1 << 0;
pub const Z: u16 = 1 << 1;
pub const N: u16 = 1 << 2;
pub const GIE: u16 = 1 << 3;
pub const V: u16 = 1 << 8;

/// "N is bit 15, Z means zero, C means not zero (003), V is signed overflow."
fn flags(result: u16, overflow: bool) -> u16 {
    let mut bits = 0;
    if result >= 0x8000 {
        bits += N;
    }
    if result == 0 {
        bits += Z;
    }
    if result != 0 {
        bits += C;
    }
    if overflow {
        bits += V;
    }
    bits
}

/// The number that a word stands for with its sign.
fn signed(word: u16) -> i32 {
    if word >= 0x8000 {
        word as i32 - 65_536
    } else {
        word as i32
    }
}

/// A signed result overflows if no word stands for it.
fn overflows(exact: i32) -> bool {
    exact < -32_768 || exact > 32_767
}

/// "ADD, SUB and CMP keep the low 16 bits of sum or difference. SUB and CMP
/// take destination minus source." "V is 0 for AND." The result and the flags
/// set by it; CMP's result is stored by nobody.
pub fn compute(operation: Operation, source: u16, destination: u16) -> (u16, u16) {
    let (result, overflow) = match operation {
        Operation::Add => (
            destination.wrapping_add(source),
            overflows(signed(destination) + signed(source)),
        ),
        Operation::Sub | Operation::Cmp => (
            destination.wrapping_sub(source),
            overflows(signed(destination) - signed(source)),
        ),
        Operation::And => (destination & source, false),
    };
    (result, flags(result, overflow))
}

/// NOT: "V is [...] the old bit 15 for NOT."
pub fn compute_not(destination: u16) -> (u16, u16) {
    let result = 0xFFFF - destination;
    (result, flags(result, destination >= 0x8000))
}
