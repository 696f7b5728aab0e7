//! Prints the expected output for a test program of the instruction and layout
//! layers: words, arithmetic, access.

use model::{
    begins, compute, compute_not, cycles, decode, encode, parts, Instruction, Layout, Operand,
    Operation, Right,
};

const EDGES: [u16; 26] = [
    0x0000, 0x0010, 0x0020, 0x0030, 0x0040, 0x1300, 0x4000, 0x4020, 0x4030, 0x4080, 0x4120, 0x4303,
    0x4520, 0x4580, 0x4F00, 0x4FFF, 0x5000, 0x50F0, 0x5F0F, 0x8000, 0x9000, 0xE030, 0xE040, 0xF000,
    0xFF0F, 0xFFFF,
];

const OPERATIONS: [(&str, Operation); 4] = [
    ("ADD", Operation::Add),
    ("SUB", Operation::Sub),
    ("CMP", Operation::Cmp),
    ("AND", Operation::And),
];

const VALUES: [u16; 5] = [0x0000, 0x0001, 0x7FFF, 0x8000, 0xFFFF];

const FROM: [u16; 7] = [0x4404, 0x8000, 0x8002, 0x8007, 0x8008, 0x8100, 0xFFFE];

const RIGHTS: [(&str, Right); 3] = [
    ("E", Right::Execute),
    ("R", Right::Read),
    ("W", Right::Write),
];

const ADDRESSES: [u16; 14] = [
    0x0000, 0x4500, 0x7FFF, 0x8000, 0x8001, 0x8002, 0x8007, 0x8008, 0x80FF, 0x8100, 0x8103, 0x8104,
    0xFFFE, 0xFFFF,
];

const LAYOUTS: [[u16; 5]; 9] = [
    [0x8000, 0x8008, 0x8100, 0x8104, 0x8007],
    [0x8000, 0x8008, 0x8100, 0x8104, 0x8008],
    [0x8001, 0x8008, 0x8100, 0x8104, 0x4500],
    [0x8008, 0x8008, 0x8100, 0x8104, 0x4500],
    [0x8000, 0x8102, 0x8100, 0x8104, 0x4500],
    [0x8000, 0x8008, 0x8008, 0x8104, 0x4500],
    [0x8100, 0x8104, 0x8000, 0x8100, 0x4500],
    [0x8000, 0x8008, 0x8100, 0x8104, 0x8102],
    [0x0000, 0x0002, 0xFFFC, 0xFFFE, 0x4500],
];

fn main() {
    // Part A, words.
    for edge in EDGES {
        for k in 0..32u32 {
            let first = ((edge as u32 + 65_536 - 16 + k) % 65_536) as u16;
            let second = [0x0000, 0xFFFF, 0xFFFE, 0x0001][(k % 4) as usize];
            word_line(first, second);
        }
    }
    for second in [0x0000, 0xFFFF] {
        for first in [0x4585, 0xE035, 0x4035] {
            word_line(first, second);
        }
    }

    // Instructions that no words stand for, each beside a neighbour that has words.
    for instruction in writable_or_not() {
        let (kind, s, d, constant) = kind_parts(&instruction);
        print!("W {kind} {s} {d} {constant:04x}");
        match encode(&instruction) {
            Some(words) => words.iter().for_each(|word| print!(" {word:04x}")),
            None => print!(" E 9"),
        }
        println!();
    }

    let count = |length| {
        (0..=0xFFFF)
            .filter(|&first| begins(first) == Some(length))
            .count()
    };
    println!("N {} {}", count(1), count(2));

    // Part B, arithmetic.
    for (name, operation) in OPERATIONS {
        for s in VALUES {
            for d in VALUES {
                let (result, flags) = compute(operation, s, d);
                println!("{name} {s:04x} {d:04x} {result:04x} {flags:04x}");
            }
        }
    }
    for d in VALUES {
        let (result, flags) = compute_not(d);
        println!("NOT {d:04x} {result:04x} {flags:04x}");
    }

    // Part C, access.
    let taken = Layout::from([0x8000, 0x8008, 0x8100, 0x8104, 0x4500]);
    for from in FROM {
        for (name, right) in RIGHTS {
            let mut answers = String::new();
            for address in ADDRESSES {
                answers.push(match taken.access(from, right, address) {
                    Ok(true) => 'y',
                    Ok(false) => 'n',
                    Err(number) => panic!("refusal {number}"),
                });
            }
            println!("{from:04x} {name} {answers}");
        }
    }
    for addresses in LAYOUTS {
        let [a, b, c, d, e] = addresses;
        let number = match Layout::from(addresses).access(0x4404, Right::Execute, 0x8000) {
            Ok(_) => 0,
            Err(number) => number,
        };
        println!("{a:04x} {b:04x} {c:04x} {d:04x} {e:04x} {number}");
    }
}

/// `w v E 9`, or `w v K s d u n c e1 [e2]`.
fn word_line(first: u16, second: u16) {
    let Some((instruction, words)) = decode(first, second) else {
        println!("{first:04x} {second:04x} E 9");
        return;
    };
    let (kind, s, d, constant) = kind_parts(&instruction);
    let c = cycles(&instruction);
    print!("{first:04x} {second:04x} {kind} {s} {d} {constant:04x} {words} {c}");
    for word in encode(&instruction).expect("what decodes can be encoded") {
        print!(" {word:04x}");
    }
    println!();
}

fn writable_or_not() -> Vec<Instruction> {
    use Instruction::*;
    use Operand::*;
    vec![
        In(15),
        In(16),
        Out(255),
        Jz(16),
        Jmp(16),
        Mov(Register(3), 3),
        Mov(Register(3), 4),
        Mov(Register(5), 0),
        Mov(Register(16), 5),
        Mov(Pointed(0), 5),
        Mov(Pointed(1), 5),
        Mov(Pointed(2), 5),
        Mov(Pointed(3), 5),
        Mov(Constant(0x1234), 0),
        Mov(Constant(0x1234), 16),
        Store(5, 0),
        Store(0, 1),
        Store(5, 2),
        Store(5, 3),
        Store(16, 4),
        Compute(Operation::Add, 15, 15),
        Compute(Operation::Sub, 16, 15),
        Compute(Operation::And, 15, 255),
        Not(15),
        Not(16),
    ]
}

/// Kind number, source, destination, constant: ADD, SUB, CMP and AND are of one kind.
fn kind_parts(instruction: &Instruction) -> (u16, u8, u8, u16) {
    let (row, s, d, constant) = parts(instruction);
    let kind = match row {
        11..=14 => 11,
        15 => 12,
        other => other,
    };
    (kind, s, d, constant)
}
