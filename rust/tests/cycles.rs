//! The cycles of an instruction are what a step of it takes.

mod support;

use enclave::{Instruction, Kind, Machine, Memory, Timetable, Trace, Words};
use support::{fields_at, paper_layout};

// The clock after one step of an instruction at 4400, outside, with every register but r2 and r3 at 4600.
fn clock_after(words: Words) -> u64 {
    let mut fields = fields_at(0x4400);
    for n in (1..16).filter(|n| ![2, 3].contains(n)) {
        fields.registers[n] = 0x4600;
    }
    let mut machine = Machine::from_fields(paper_layout(), &fields).unwrap();
    let mut memory = Memory::zeroed();
    match words {
        Words::One(first) => memory.set_word(0x4400, first),
        Words::Two(first, second) => {
            memory.set_word(0x4400, first);
            memory.set_word(0x4402, second);
        }
    }
    let (timetable, trace) = (Timetable::empty(), Trace::empty());
    let kind = machine.step(&mut memory, &timetable, &trace).unwrap();
    assert!(matches!(kind, Kind::Ran | Kind::Halted), "{words:?}");
    machine.clock()
}

#[test]
fn step_takes_the_cycles_of_its_instruction() {
    let mut rows = [0; 16];
    for first in 0..=u16::MAX {
        for second in [0x0000, 0xFFFF] {
            let Ok((instruction, _)) = Instruction::read(first, second) else {
                continue;
            };
            let clock = clock_after(instruction.write().unwrap());
            assert_eq!(instruction.cycles(), clock, "{instruction}");
            rows[row_of(instruction)] += 1;
        }
    }
    assert!(rows.iter().all(|count| *count > 0), "{rows:?}");
}

// A number of its own for each row of the table of instruction words.
fn row_of(instruction: Instruction) -> usize {
    let rows = [
        "HLT", "IN ", "OUT ", "JZ ", "RETI", "NOP", "JMP ", "ADD ", "SUB ", "CMP ", "AND ", "NOT ",
        "MOV @", "MOV #",
    ];
    let text = instruction.to_string();
    let found = rows.iter().position(|row| text.starts_with(row));
    found.unwrap_or(if text.contains("0(") { 14 } else { 15 })
}
