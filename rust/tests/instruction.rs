//! Reading and writing instructions, over all first words.

use enclave::{Instruction, Operand, Operation, Refusal, Register, Words};

fn register(number: u8) -> Register {
    Register::new(number).unwrap()
}

// How many first words decode with this second word; each is written back as it was read.
fn decoded_with(second: u16) -> usize {
    let mut count = 0;
    for first in 0..=u16::MAX {
        let Ok((instruction, length)) = Instruction::read(first, second) else {
            continue;
        };
        let words = match length {
            1 => Words::One(first),
            _ => Words::Two(first, second),
        };
        assert_eq!(instruction.write(), Ok(words));
        count += 1;
    }
    count
}

#[test]
fn every_first_word_round_trips() {
    // By document 01's table: HLT, IN, OUT, JZ, RETI, NOP, JMP, MOV, MOV @, MOV #, ADD to AND.
    let others = 1 + 16 + 16 + 16 + 1 + 1 + 16 + (16 * 15 - 1) + 13 * 16 + 16 + 4 * 256;
    let (stores, nots) = (16 * 13, 16);
    assert_eq!(decoded_with(0x0000), others + stores);
    assert_eq!(decoded_with(0xFFFF), others + nots);
    assert_eq!(decoded_with(0xFFFE), others);
    assert_eq!(decoded_with(0x1234), others);
}

// Every instruction that the types can say with a constant.
fn all_instructions(constant: u16) -> Vec<Instruction> {
    let registers: Vec<Register> = (0..16).map(register).collect();
    let mut all = vec![Instruction::Hlt, Instruction::Reti, Instruction::Nop];
    for &d in &registers {
        all.extend([Instruction::In(d), Instruction::Out(d), Instruction::Jz(d)]);
        all.extend([Instruction::Jmp(d), Instruction::Not(d)]);
        all.push(Instruction::Mov(Operand::Constant(constant), d));
        for &s in &registers {
            all.extend([Operand::Register(s), Operand::Pointed(s)].map(|o| Instruction::Mov(o, d)));
            all.push(Instruction::Store(s, d));
            let operations = [
                Operation::Add,
                Operation::Sub,
                Operation::Cmp,
                Operation::And,
            ];
            all.extend(operations.map(|o| Instruction::Compute(o, s, d)));
        }
    }
    all
}

#[test]
fn every_instruction_round_trips() {
    let mut written = 0;
    for instruction in all_instructions(0xBEEF) {
        let (first, second, length) = match instruction.write() {
            Ok(Words::One(first)) => (first, 0, 1),
            Ok(Words::Two(first, second)) => (first, second, 2),
            Err(refusal) => {
                assert_eq!(refusal, Refusal::Word);
                continue;
            }
        };
        assert_eq!(Instruction::read(first, second), Ok((instruction, length)));
        written += 1;
    }
    assert_eq!(written, 1778);
}

#[test]
fn words_of_the_table() {
    let (five, six) = (register(5), register(6));
    let of = |instruction: Instruction| instruction.write().unwrap();
    assert_eq!(of(Instruction::Hlt), Words::One(0x0001));
    assert_eq!(of(Instruction::In(five)), Words::One(0x0015));
    assert_eq!(of(Instruction::Out(five)), Words::One(0x0025));
    assert_eq!(of(Instruction::Jz(five)), Words::One(0x0035));
    assert_eq!(of(Instruction::Reti), Words::One(0x1300));
    assert_eq!(of(Instruction::Jmp(five)), Words::One(0x4500));
    assert_eq!(
        of(Instruction::Mov(Operand::Register(five), six)),
        Words::One(0x4506)
    );
    assert_eq!(
        of(Instruction::Mov(Operand::Pointed(five), six)),
        Words::One(0x4526)
    );
    assert_eq!(
        of(Instruction::Store(five, six)),
        Words::Two(0x4586, 0x0000)
    );
    assert_eq!(
        of(Instruction::Mov(Operand::Constant(0x1234), six)),
        Words::Two(0x4036, 0x1234)
    );
    assert_eq!(
        of(Instruction::Compute(Operation::Add, five, six)),
        Words::One(0x5506)
    );
    assert_eq!(
        of(Instruction::Compute(Operation::Sub, five, six)),
        Words::One(0x8506)
    );
    assert_eq!(
        of(Instruction::Compute(Operation::Cmp, five, six)),
        Words::One(0x9506)
    );
    assert_eq!(
        of(Instruction::Compute(Operation::And, five, six)),
        Words::One(0xF506)
    );
    assert_eq!(of(Instruction::Not(six)), Words::Two(0xE036, 0xFFFF));
}

#[test]
fn registers_are_0_to_15() {
    assert_eq!(Register::new(15).map(Register::number), Some(15));
    assert_eq!(Register::new(16), None);
}
