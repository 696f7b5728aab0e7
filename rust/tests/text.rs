//! What refusals, causes, registers and instructions are as text.

use enclave::{
    Cause, Instruction, Operand, Operation, Refusal, Register, Setup, SheetRefusal, StopAddress,
};

fn register(number: u8) -> Register {
    Register::new(number).unwrap()
}

#[test]
fn refusal_says_what_is_wrong_and_what_to_do() {
    assert_eq!(
        Refusal::Timetable.to_string(),
        "the stamps are more than 4,096, not rising, or not 1 to 2^62: sort them and drop doubles"
    );
    for refusal in Refusal::ALL {
        let text = refusal.to_string();
        let parts = text.split_once(": ");
        let (wrong, todo) = parts.unwrap_or_else(|| panic!("no advice: {text}"));
        assert!(!wrong.is_empty() && !todo.is_empty(), "{text}");
        assert!(!text.contains("  ") && !text.contains('\n'), "{text}");
        assert!(!text.ends_with('.'), "{text}");
    }
}

#[test]
fn sentences_differ() {
    let mut texts: Vec<String> = Refusal::ALL.map(|r| r.to_string()).into();
    texts.extend(Cause::ALL.map(|c| c.to_string()));
    texts.sort();
    texts.dedup();
    assert_eq!(texts.len(), 11 + 8);
}

#[test]
fn odd_stop_address_is_told() {
    assert_eq!(
        StopAddress::new(0x4405).unwrap_err().to_string(),
        "the stop address is odd, and pc is always even: give the address of an instruction's first word"
    );
}

#[test]
fn stop_address_is_four_digits() {
    let text = |address| StopAddress::new(address).unwrap().to_string();
    assert_eq!(text(0x4404), "4404");
    assert_eq!(text(0x00FE), "00FE");
}

#[test]
fn sheet_refusal_begins_with_its_line() {
    let text = |sheet: &[u8]| Setup::read(sheet).unwrap_err().to_string();
    let stamps = b"L\t8000\t8008\t8100\t8104\t4500\nA\t6\nA\t6\nG\t20\n";
    assert_eq!(text(stamps), format!("line 3: {}", Refusal::Timetable));
    assert!(text(b"").starts_with("line 1: this line cannot be read: "));
    let long = vec![b'L'; 32769];
    assert_eq!(text(&long), Refusal::Sheet.to_string());
    let late = SheetRefusal {
        refusal: Refusal::Distance,
        line: 13,
    };
    assert_eq!(
        late.to_string(),
        "line 13: the budget is above 1,000,000: run more than once"
    );
}

#[test]
fn causes_are_document_01s() {
    let first = "pc may not be executed from the previous instruction's address";
    assert_eq!(Cause::Execute.to_string(), first);
    assert_eq!(Cause::Write.to_string(), "a write is barred");
}

#[test]
fn registers_are_r0_to_r15() {
    assert_eq!(Register::PC.to_string(), "r0");
    assert_eq!(Register::ZERO.to_string(), "r3");
    assert_eq!(register(15).to_string(), "r15");
    assert_eq!(format!("{:?}", register(10)), "r10");
}

#[test]
fn instructions_are_in_document_01s_notation() {
    let (five, six) = (register(5), register(6));
    let texts = [
        (Instruction::Hlt, "HLT"),
        (Instruction::In(five), "IN 5"),
        (Instruction::Out(five), "OUT 5"),
        (Instruction::Jz(five), "JZ &5"),
        (Instruction::Reti, "RETI"),
        (Instruction::Nop, "NOP"),
        (Instruction::Jmp(five), "JMP &5"),
        (Instruction::Mov(Operand::Register(five), six), "MOV 5 6"),
        (Instruction::Mov(Operand::Pointed(five), six), "MOV @5 6"),
        (Instruction::Store(five, six), "MOV 5 0(6)"),
        (Instruction::Mov(Operand::Constant(8), six), "MOV #0008 6"),
        (Instruction::Compute(Operation::Add, five, six), "ADD 5 6"),
        (Instruction::Compute(Operation::Sub, five, six), "SUB 5 6"),
        (Instruction::Compute(Operation::Cmp, five, six), "CMP 5 6"),
        (Instruction::Compute(Operation::And, five, six), "AND 5 6"),
        (Instruction::Not(register(15)), "NOT F"),
    ];
    for (instruction, text) in texts {
        assert_eq!(instruction.to_string(), text);
    }
}

#[test]
fn digits_are_those_of_the_words() {
    for digit in 1..16 {
        let (moved, _) = Instruction::read(0x4500 + digit, 0).unwrap();
        assert_eq!(moved.to_string(), format!("MOV 5 {digit:X}"));
    }
    let (jump, _) = Instruction::read(0x4500, 0).unwrap();
    assert_eq!(jump.to_string(), "JMP &5");
}
