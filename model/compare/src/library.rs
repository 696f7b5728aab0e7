//! The static library as a subject. It sees to it that a refused call alters nothing that was lent.

use crate::rides::Ride;
use crate::subject::{
    Addresses, Lent, Ran, Read, Setup, SheetRead, State, Stepped, Subject, Written,
};
use crate::subject::{MEMORY_BYTES, TOUCHED};
use enclave::raw::{self, Lists, Numbers, Places};

/// What stands in an answer's place before a call.
const BLANK: u8 = 0xA5;
const BLANK_WORD: u16 = 0xA5A5;
const BLANK_NUMBER: u64 = 0xA5A5_A5A5_A5A5_A5A5;

pub const LIBRARY: Subject = Subject {
    start,
    step,
    run,
    run_to,
    access,
    read,
    write,
    read_sheet,
};

/// A state as the functions take it.
fn numbers(state: &State) -> Numbers {
    Numbers {
        registers: state.registers,
        saved: state.saved,
        control: [
            state.previous,
            state.halted,
            state.held,
            state.held_previous,
            state.held_age,
        ],
        time: [state.clock, state.slot, state.alarm],
    }
}

/// The state that the functions handed back.
fn state_of(numbers: &Numbers) -> State {
    let [previous, halted, held, held_previous, held_age] = numbers.control;
    let [clock, slot, alarm] = numbers.time;
    State {
        registers: numbers.registers,
        saved: numbers.saved,
        previous,
        halted,
        held,
        held_previous,
        held_age,
        clock,
        slot,
        alarm,
    }
}

/// The number of a refusal, or that it altered an answer's place.
fn refused<T>(number: u8, untouched: bool) -> Result<T, u8> {
    Err(if untouched { number } else { TOUCHED })
}

fn start(memory: &[u8]) -> Result<State, u8> {
    let blank = State::filled(BLANK_WORD);
    let mut machine = numbers(&blank);
    match machine.start(memory) {
        0 => Ok(state_of(&machine)),
        number => refused(number, state_of(&machine) == blank),
    }
}

/// The lists as the functions take them.
fn lists(lent: Lent<'_>) -> Lists<'_> {
    Lists {
        stamps: lent.stamps,
        trace_stamps: lent.records.stamps,
        trace_words: lent.records.words,
    }
}

fn step(state: &mut State, memory: &mut [u8], lent: Lent) -> Stepped {
    let mut machine = numbers(state);
    let (mut kind, mut cause) = (BLANK, BLANK);
    let number = machine.step(memory, lent.layout, lists(lent), &mut kind, &mut cause);
    *state = state_of(&machine);
    match number {
        0 => Ok((kind, cause)),
        _ => refused(number, (kind, cause) == (BLANK, BLANK)),
    }
}

fn run(state: &mut State, memory: &mut [u8], lent: Lent, budget: u64) -> Ran {
    let mut machine = numbers(state);
    let (mut end, mut steps) = (BLANK, BLANK_NUMBER);
    let number = machine.run(
        memory,
        lent.layout,
        lists(lent),
        budget,
        &mut end,
        &mut steps,
    );
    *state = state_of(&machine);
    match number {
        0 => Ok((end, steps)),
        _ => refused(number, (end, steps) == (BLANK, BLANK_NUMBER)),
    }
}

fn run_to(state: &mut State, memory: &mut [u8], lent: Lent, stop: u16, budget: u64) -> Ran {
    let mut machine = numbers(state);
    let (mut end, mut steps) = (BLANK, BLANK_NUMBER);
    let number = machine.run_to(
        memory,
        lent.layout,
        lists(lent),
        stop,
        budget,
        &mut end,
        &mut steps,
    );
    *state = state_of(&machine);
    match number {
        0 => Ok((end, steps)),
        _ => refused(number, (end, steps) == (BLANK, BLANK_NUMBER)),
    }
}

fn access(layout: &Addresses, from: u16, address: u16) -> Result<u8, u8> {
    let mut rights = BLANK;
    let number = raw::access(layout, from, address, &mut rights);
    match number {
        0 => Ok(rights),
        _ => refused(number, rights == BLANK),
    }
}

fn read(first: u16, second: u16) -> Read {
    let (mut fields, mut length) = ([BLANK_WORD; 4], BLANK);
    let number = raw::read(first, second, &mut fields, &mut length);
    match number {
        0 => Ok((fields, length)),
        _ => refused(number, fields == [BLANK_WORD; 4] && length == BLANK),
    }
}

fn write(fields: &[u16; 4]) -> Written {
    let (mut first, mut second, mut length) = (BLANK_WORD, BLANK_WORD, BLANK);
    let number = raw::write(fields, &mut first, &mut second, &mut length);
    let untouched = (first, second, length) == (BLANK_WORD, BLANK_WORD, BLANK);
    match (number, length) {
        (0, 1) if second == BLANK_WORD => Ok((first, None)),
        (0, 2) => Ok((first, Some(second))),
        (0, _) => Err(TOUCHED),
        _ => refused(number, untouched),
    }
}

/// Nothing was written to the places that a sheet is read into.
fn untouched(places: &Places) -> bool {
    places.memory.iter().all(|&byte| byte == BLANK)
        && places.stamps.iter().all(|&stamp| stamp == BLANK_NUMBER)
        && places
            .trace_stamps
            .iter()
            .all(|&stamp| stamp == BLANK_NUMBER)
        && places.trace_words.iter().all(|&word| word == BLANK_WORD)
        && places.layout == [BLANK_WORD; 5]
        && places.count == BLANK_NUMBER
        && places.records == BLANK_NUMBER
        && places.budget == BLANK_NUMBER
}

/// The front of a list. None where it has no such many places, or those beyond are not as they
/// came.
fn front<T: Copy + PartialEq>(list: &[T], count: u64, blank: T) -> Option<Vec<T>> {
    let (front, beyond) = list.split_at_checked(count as usize)?;
    let untouched = beyond.iter().all(|&item| item == blank);
    untouched.then(|| front.to_vec())
}

/// What was set up.
fn setup(places: &Places) -> Option<Setup> {
    let (count, records) = (places.count, places.records);
    Some(Setup {
        layout: places.layout,
        memory: places.memory.to_vec(),
        stamps: front(&*places.stamps, count, BLANK_NUMBER)?,
        ride: Ride {
            stamps: front(&*places.trace_stamps, records, BLANK_NUMBER)?,
            words: front(&*places.trace_words, records, BLANK_WORD)?,
        },
        budget: places.budget,
    })
}

fn read_sheet(sheet: &[u8]) -> SheetRead {
    let mut places = Places {
        memory: Box::new([BLANK; MEMORY_BYTES]),
        stamps: Box::new([BLANK_NUMBER; 4096]),
        trace_stamps: Box::new([BLANK_NUMBER; 4096]),
        trace_words: Box::new([BLANK_WORD; 4096]),
        layout: [BLANK_WORD; 5],
        count: BLANK_NUMBER,
        records: BLANK_NUMBER,
        budget: BLANK_NUMBER,
    };
    let mut line = BLANK_NUMBER;
    match places.read(sheet, &mut line) {
        0 => setup(&places).ok_or((TOUCHED, 0)),
        number if untouched(&places) => Err((number, line)),
        _ => Err((TOUCHED, line)),
    }
}
