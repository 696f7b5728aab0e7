//! A model as a subject. This file is built once for the model and once for each mutant of it, as
//! a neighbour of `model`.

use super::model::{
    decode, encode, parts, read_sheet, Instruction, Layout, Machine, Operand, Operation, Right,
    SavedContext, Stop, Trace,
};
use crate::rides::Ride;
use crate::subject::{
    Addresses, Lent, Ran, Read, Setup, SheetRead, State, Stepped, Subject, Written,
};

pub const SUBJECT: Subject = Subject {
    start,
    step,
    run,
    run_to,
    access,
    read,
    write,
    read_sheet: sheet,
};

/// The model's machine. A state with a number that only the library's fields can hold gets a
/// broken frame: both are refused by 4.
fn machine(state: &State) -> Machine {
    let held = SavedContext {
        registers: state.saved,
        previous: state.held_previous,
        age: state.held_age as u64,
    };
    let meant = state.halted < 2 && state.held < 2;
    Machine {
        registers: state.registers,
        clock: state.clock,
        slot: Some(state.slot).filter(|&stamp| stamp != 0),
        alarm: Some(state.alarm).filter(|&stamp| stamp != 0),
        halted: state.halted == 1,
        previous: if meant { state.previous } else { 1 },
        held: Some(held).filter(|_| state.held == 1),
    }
}

/// The library's fields of the model's machine: what is not held is 0.
fn fields(machine: &Machine) -> State {
    let none = SavedContext {
        registers: [0; 16],
        previous: 0,
        age: 0,
    };
    let held = machine.held.unwrap_or(none);
    State {
        registers: machine.registers,
        saved: held.registers,
        previous: machine.previous,
        halted: machine.halted as u16,
        held: machine.held.is_some() as u16,
        held_previous: held.previous,
        held_age: held.age as u16,
        clock: machine.clock,
        slot: machine.slot.unwrap_or(0),
        alarm: machine.alarm.unwrap_or(0),
    }
}

fn start(memory: &[u8]) -> Result<State, u8> {
    Machine::start(memory).map(|machine| fields(&machine))
}

/// The model's trace of what is lent.
fn trace(lent: Lent<'_>) -> Trace<'_> {
    Trace {
        stamps: lent.records.stamps,
        words: lent.records.words,
    }
}

fn step(state: &mut State, memory: &mut [u8], lent: Lent) -> Stepped {
    let mut machine = machine(state);
    let layout = Layout::from(*lent.layout);
    let outcome = machine.step(memory, &layout, lent.stamps, trace(lent))?;
    *state = fields(&machine);
    let cause = match outcome {
        super::model::Outcome::Reset(cause) => cause,
        _ => 0,
    };
    Ok((outcome.letter() as u8, cause))
}

fn run(state: &mut State, memory: &mut [u8], lent: Lent, budget: u64) -> Ran {
    stopping(state, memory, lent, Stop::Never, budget)
}

fn run_to(state: &mut State, memory: &mut [u8], lent: Lent, stop: u16, budget: u64) -> Ran {
    stopping(state, memory, lent, Stop::At(stop), budget)
}

fn stopping(state: &mut State, memory: &mut [u8], lent: Lent, stop: Stop, budget: u64) -> Ran {
    let mut machine = machine(state);
    let layout = Layout::from(*lent.layout);
    let (end, steps) = machine.run(memory, &layout, lent.stamps, trace(lent), stop, budget)?;
    *state = fields(&machine);
    Ok((end.letter() as u8, steps))
}

fn access(layout: &Addresses, from: u16, address: u16) -> Result<u8, u8> {
    let layout = Layout::from(*layout);
    let mut rights = 0;
    for (right, bit) in [(Right::Execute, 1), (Right::Read, 2), (Right::Write, 4)] {
        if layout.access(from, right, address)? {
            rights += bit;
        }
    }
    Ok(rights)
}

const OPERATIONS: [Operation; 4] = [
    Operation::Add,
    Operation::Sub,
    Operation::Cmp,
    Operation::And,
];

fn read(first: u16, second: u16) -> Read {
    let (instruction, length) = decode(first, second).ok_or(9)?;
    let (row, s, d, constant) = parts(&instruction);
    Ok(([row, s as u16, d as u16, constant], length))
}

fn write(fields: &[u16; 4]) -> Written {
    let words = encode(&instruction(fields).ok_or(9)?).ok_or(9)?;
    Ok((words[0], words.get(1).copied()))
}

/// The instruction of a row; a register too large for the model's field is 255 there, which is
/// refused alike.
fn instruction(fields: &[u16; 4]) -> Option<Instruction> {
    let [row, s, d, constant] = *fields;
    let (s, d) = (s.min(255) as u8, d.min(255) as u8);
    Some(match row {
        0 => Instruction::Hlt,
        1 => Instruction::In(d),
        2 => Instruction::Out(s),
        3 => Instruction::Jz(s),
        4 => Instruction::Reti,
        5 => Instruction::Nop,
        6 => Instruction::Jmp(s),
        7 => Instruction::Mov(Operand::Register(s), d),
        8 => Instruction::Mov(Operand::Pointed(s), d),
        9 => Instruction::Store(s, d),
        10 => Instruction::Mov(Operand::Constant(constant), d),
        11..=14 => Instruction::Compute(OPERATIONS[row as usize - 11], s, d),
        15 => Instruction::Not(d),
        _ => return None,
    })
}

fn sheet(sheet: &[u8]) -> SheetRead {
    match read_sheet(sheet) {
        Ok(read) => Ok(Setup {
            layout: [
                read.layout.code_start,
                read.layout.code_end,
                read.layout.data_start,
                read.layout.data_end,
                read.layout.service,
            ],
            memory: read.memory,
            stamps: read.stamps,
            ride: Ride {
                stamps: read.trace_stamps,
                words: read.trace_words,
            },
            budget: read.budget,
        }),
        Err((number, line)) => Err((number, line as u64)),
    }
}
