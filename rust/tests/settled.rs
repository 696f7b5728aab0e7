//! The cases that document 01 settles beforehand.

mod support;

use enclave::{
    Budget, Instruction, Kind, Layout, Machine, Memory, Refusal, Register, Rights, Timetable,
    Trace, Words, LAST_CLOCK, MOST_STAMPS,
};
use support::{fields_at, machine_at, paper_layout};

fn register(number: u8) -> Register {
    Register::new(number).unwrap()
}

#[test]
fn word_4303_is_nop() {
    assert_eq!(Instruction::read(0x4303, 0), Ok((Instruction::Nop, 1)));
    assert_eq!(Instruction::Nop.write(), Ok(Words::One(0x4303)));
}

#[test]
fn word_4500_is_jmp_5() {
    let jump = Instruction::Jmp(register(5));
    assert_eq!(Instruction::read(0x4500, 0), Ok((jump, 1)));
}

#[test]
fn words_0000_and_e035_fffe_do_not_decode() {
    assert_eq!(Instruction::read(0x0000, 0), Err(Refusal::Word));
    assert_eq!(Instruction::read(0xE035, 0xFFFE), Err(Refusal::Word));
    let not = Instruction::Not(register(5));
    assert_eq!(Instruction::read(0xE035, 0xFFFF), Ok((not, 2)));
}

// One instruction on r5, with r6 beside it: r5 and the status after it.
fn computed(word: u16, r5: u16, r6: u16) -> (u16, u16) {
    let mut fields = fields_at(0x4400);
    fields.registers[5] = r5;
    fields.registers[6] = r6;
    let mut machine = Machine::from_fields(paper_layout(), &fields).unwrap();
    let mut memory = Memory::zeroed();
    memory.set_word(0x4400, word);
    let kind = machine.step(&mut memory, &Timetable::empty(), &Trace::empty());
    assert_eq!((kind, machine.clock()), (Ok(Kind::Ran), 1));
    (machine.register(register(5)), machine.status().bits())
}

#[test]
fn sums_and_flags() {
    const ADD_6_5: u16 = 0x5605;
    const SUB_6_5: u16 = 0x8605;
    assert_eq!(computed(ADD_6_5, 0xFFFF, 1), (0, 0x0002));
    assert_eq!(computed(ADD_6_5, 0x7FFF, 1), (0x8000, 0x0105));
    assert_eq!(computed(SUB_6_5, 0, 1), (0xFFFF, 0x0005));
}

#[test]
fn status_bits_have_their_places() {
    let flags = |status| {
        let mut fields = fields_at(0x4400);
        fields.registers[2] = status;
        let machine = Machine::from_fields(paper_layout(), &fields).unwrap();
        let s = machine.status();
        [
            s.carry(),
            s.zero(),
            s.negative(),
            s.interrupts_allowed(),
            s.overflow(),
        ]
    };
    assert_eq!(flags(0x0001), [true, false, false, false, false]);
    assert_eq!(flags(0x0002), [false, true, false, false, false]);
    assert_eq!(flags(0x0004), [false, false, true, false, false]);
    assert_eq!(flags(0x0008), [false, false, false, true, false]);
    assert_eq!(flags(0x0100), [false, false, false, false, true]);
}

#[test]
fn only_the_entry_is_executed_from_4404() {
    let layout = paper_layout();
    assert!(layout.access(0x4404, 0x8000).execute);
    assert_eq!(layout.access(0x4404, 0x8002), Rights::default());
}

#[test]
fn access_table() {
    let rights = |execute, read, write| Rights {
        execute,
        read,
        write,
    };
    let layout = paper_layout();
    let row = |from| [0x8000, 0x8002, 0x8100, 0x4400].map(|address| layout.access(from, address));
    let execute = rights(true, false, false);
    let none = rights(false, false, false);
    let data = rights(false, true, true);
    assert_eq!(row(0x8004), [execute, execute, data, execute]);
    assert_eq!(row(0x4404), [execute, none, none, rights(true, true, true)]);
}

#[test]
fn service_8007_is_refused_and_8008_taken() {
    let layout = |service| Layout::new(0x8000..0x8008, 0x8100..0x8104, service);
    assert_eq!(layout(0x8007), Err(Refusal::Fence));
    assert_eq!(layout(0x8006), Err(Refusal::Fence));
    let taken = layout(0x8008).unwrap();
    assert_eq!(
        (taken.code(), taken.data()),
        (0x8000..0x8008, 0x8100..0x8104)
    );
    assert_eq!((taken.service(), taken.entry()), (0x8008, 0x8000));
}

#[test]
fn timetable_has_at_most_4096_stamps() {
    let stamps: Vec<u64> = (1..=4097).collect();
    assert!(Timetable::new(&stamps[..MOST_STAMPS]).is_ok());
    assert_eq!(Timetable::new(&stamps), Err(Refusal::Timetable));
}

#[test]
fn stamps_rise_from_1_to_2_to_the_62() {
    assert!(Timetable::new(&[1, 2, LAST_CLOCK]).is_ok());
    assert_eq!(Timetable::new(&[]), Ok(Timetable::empty()));
    for stamps in [&[0, 1][..], &[LAST_CLOCK + 1], &[5, 5], &[6, 5]] {
        assert_eq!(Timetable::new(stamps), Err(Refusal::Timetable));
    }
}

#[test]
fn budget_is_at_most_1000000() {
    assert_eq!(Budget::new(1_000_000), Ok(Budget::MOST));
    assert_eq!(Budget::new(1_000_001), Err(Refusal::Distance));
}

#[test]
fn clock_2_to_the_62_steps() {
    let (mut machine, mut memory) = machine_at(LAST_CLOCK);
    let kind = machine.step(&mut memory, &Timetable::empty(), &Trace::empty());
    assert_eq!((kind, machine.clock()), (Ok(Kind::Ran), LAST_CLOCK + 1));
}

#[test]
fn clock_above_2_to_the_62_is_refused() {
    let (mut machine, mut memory) = machine_at(LAST_CLOCK + 1);
    let before = (machine.clone(), memory.clone());
    let (timetable, trace) = (Timetable::empty(), Trace::empty());
    let stepped = machine.step(&mut memory, &timetable, &trace);
    assert_eq!(stepped, Err(Refusal::Clock));
    let ran = machine.run(&mut memory, &timetable, &trace, Budget::MOST);
    assert_eq!(ran, Err(Refusal::Clock));
    assert_eq!((machine, memory), before);
}

#[test]
fn run_stops_above_2_to_the_62() {
    let (mut machine, mut memory) = machine_at(LAST_CLOCK);
    let (timetable, trace) = (Timetable::empty(), Trace::empty());
    let stop = machine
        .run(&mut memory, &timetable, &trace, Budget::MOST)
        .unwrap();
    assert_eq!((stop.end, stop.steps), (enclave::End::Clock, 1));
}
