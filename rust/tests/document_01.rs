//! Document 01's sheet, byte for byte, and its other stamps.

mod support;

use enclave::{End, Kind, Stop};
use support::{paper_setup, paper_sheet, sheet_with, transcript, worked_sheet};

const TRANSCRIPT: &str = "\
step\tkind\tclock\tpc\tsr
1\tR\t2\t4404\t0008
2\tR\t4\t8000\t0008
3\tR\t5\t8002\t0008
4\tP\t18\t4500\t0000
5\tB\t24\t8006\t0008
6\tR\t26\t4600\t0008
7\tH\t27\t4602\t0008
H\t7\t27
";

#[test]
fn sheet_file_is_the_papers() {
    assert_eq!(worked_sheet("document-01"), paper_sheet().as_bytes());
}

#[test]
fn transcript_is_the_papers() {
    assert_eq!(transcript(paper_sheet().as_bytes()), TRANSCRIPT);
}

#[test]
fn run_ends_where_the_steps_do() {
    let mut setup = paper_setup();
    let mut machine = setup.start();
    let stop = machine.run(
        &mut setup.memory,
        &setup.timetable,
        &setup.trace,
        setup.budget,
    );
    let (end, steps) = (End::Halted, 7);
    assert_eq!(stop, Ok(Stop { end, steps }));
    assert_eq!((machine.clock(), machine.pc()), (27, 0x4602));
    assert!(machine.is_halted());
}

#[test]
fn halted_machine_answers_halted_unchanged() {
    let mut setup = paper_setup();
    let mut machine = setup.start();
    machine
        .run(
            &mut setup.memory,
            &setup.timetable,
            &setup.trace,
            setup.budget,
        )
        .unwrap();
    let (halted, memory) = (machine.clone(), setup.memory.clone());
    let kind = machine.step(&mut setup.memory, &setup.timetable, &setup.trace);
    assert_eq!(kind, Ok(Kind::Halted));
    assert_eq!((machine, setup.memory), (halted, memory));
}

#[test]
fn padded_interrupt_saves_the_context() {
    let mut setup = paper_setup();
    let mut machine = setup.start();
    let mut kinds = Vec::new();
    for _ in 0..4 {
        kinds.push(
            machine
                .step(&mut setup.memory, &setup.timetable, &setup.trace)
                .unwrap(),
        );
    }
    assert_eq!(kinds, [Kind::Ran, Kind::Ran, Kind::Ran, Kind::Padded]);
    let context = machine.held().unwrap();
    assert_eq!(context.registers[0], 0x8006);
    assert_eq!(context.registers[5], 0x4600);
    assert_eq!((context.previous, context.age), (0x8002, 1));
    assert_eq!(machine.previous(), 0xFFFE);
    assert_eq!(
        *machine.registers(),
        [0x4500, 0, 0, 0, 0, 0, 0, 0, 0, 0, 0, 0, 0, 0, 0, 0]
    );
}

// The step at this place of the transcript of the sheet with another stamp.
fn step_of(stamp: &str, place: usize) -> String {
    let sheet = sheet_with(&format!("A {stamp}/"));
    transcript(sheet.as_bytes())
        .lines()
        .nth(place)
        .unwrap()
        .to_owned()
}

#[test]
fn stamp_5_is_padded_at_17() {
    assert_eq!(step_of("5", 3), "3\tP\t17\t4500\t0000");
}

#[test]
fn stamp_7_is_padded_at_19() {
    assert_eq!(step_of("7", 4), "4\tP\t19\t4500\t0000");
}

#[test]
fn stamp_4_is_plain_at_10() {
    assert_eq!(step_of("4", 2), "2\tI\t10\t4500\t0000");
    let mut setup = enclave::Setup::read(sheet_with("A 4/").as_bytes()).unwrap();
    let mut machine = setup.start();
    machine
        .step(&mut setup.memory, &setup.timetable, &setup.trace)
        .unwrap();
    machine
        .step(&mut setup.memory, &setup.timetable, &setup.trace)
        .unwrap();
    assert_eq!(machine.sp(), 0xFFFC);
    assert_eq!(
        (setup.memory.word(0xFFFE), setup.memory.word(0xFFFC)),
        (0x8000, 0x0008)
    );
}
