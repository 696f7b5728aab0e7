//! The transcript that the library writes: in parts of any size the bytes that steps by hand give.

mod support;

use std::io;

use enclave::raw::{Lists, Progress};
use enclave::{Budget, Machine, Memory, Setup, Timetable, Trace, Transcript, LAST_CLOCK};
use support::raw::Lent;
use support::{fields_at, paper_layout, paper_setup, transcript, worked_sheet, worked_sheets};

// All parts of a transcript, each taken in a buffer of this size.
fn in_parts(transcript: &mut Transcript<'_>, size: usize) -> Vec<u8> {
    let mut all = Vec::new();
    while !transcript.is_complete() {
        let mut out = vec![0xAA; size];
        let filled = transcript.fill(&mut out);
        assert!(filled > 0, "each part has a line");
        assert!(out[..filled].ends_with(b"\n"), "lines are whole");
        assert!(out[filled..].iter().all(|byte| *byte == 0xAA));
        all.extend_from_slice(&out[..filled]);
    }
    all
}

// A sheet's transcript in parts of this size, and what it leaves.
fn told(sheet: &[u8], size: usize) -> (String, Machine, Memory) {
    let mut setup = Setup::read(sheet).unwrap();
    let mut machine = setup.start();
    let mut parts = machine.transcript(
        &mut setup.memory,
        &setup.timetable,
        &setup.trace,
        setup.budget,
    );
    let text = String::from_utf8(in_parts(&mut parts, size)).unwrap();
    (text, machine, setup.memory)
}

// What a sheet's run leaves.
fn ran(sheet: &[u8]) -> (Machine, Memory) {
    let mut setup = Setup::read(sheet).unwrap();
    let mut machine = setup.start();
    let stop = machine.run(
        &mut setup.memory,
        &setup.timetable,
        &setup.trace,
        setup.budget,
    );
    stop.unwrap();
    (machine, setup.memory)
}

#[test]
fn parts_of_any_size_are_the_steps_by_hand() {
    let names = worked_sheets();
    assert!(names.len() >= 18, "{names:?}");
    for name in names {
        let sheet = worked_sheet(&name);
        let by_hand = transcript(&sheet);
        let (last, memory) = ran(&sheet);
        for size in [64, 65, 100, 4096] {
            let (text, machine, bytes) = told(&sheet, size);
            assert_eq!(text, by_hand, "{name} in parts of {size}");
            assert!((machine, bytes) == (last.clone(), memory.clone()), "{name}");
        }
    }
}

#[test]
fn written_whole_it_is_the_same() {
    for name in worked_sheets() {
        let mut setup = Setup::read(&worked_sheet(&name)).unwrap();
        let mut machine = setup.start();
        let mut out = Vec::new();
        machine
            .transcript(
                &mut setup.memory,
                &setup.timetable,
                &setup.trace,
                setup.budget,
            )
            .write_to(&mut out)
            .unwrap();
        assert_eq!(out, transcript(&worked_sheet(&name)).as_bytes(), "{name}");
    }
}

#[test]
fn machine_goes_on_line_by_line() {
    let (mut setup, mut stepped) = (paper_setup(), paper_setup());
    let (mut machine, mut by_hand) = (setup.start(), stepped.start());
    let mut out = [0; Transcript::LINE_SIZE];
    let mut lines = machine.transcript(
        &mut setup.memory,
        &setup.timetable,
        &setup.trace,
        setup.budget,
    );
    assert_eq!((lines.fill(&mut out), lines.steps()), (22, 0), "the header");
    assert_eq!((lines.fill(&mut out), lines.steps()), (16, 1));
    assert_eq!(&out[..16], b"1\tR\t2\t4404\t0008\n");
    by_hand
        .step(&mut stepped.memory, &stepped.timetable, &stepped.trace)
        .unwrap();
    assert_eq!((machine, setup.memory), (by_hand, stepped.memory));
}

#[test]
fn less_than_a_line_of_room_gets_nothing() {
    let mut setup = paper_setup();
    let mut machine = setup.start();
    let mut lines = machine.transcript(
        &mut setup.memory,
        &setup.timetable,
        &setup.trace,
        setup.budget,
    );
    for size in [0, 1, 22, 63] {
        assert_eq!(lines.fill(&mut vec![0; size]), 0);
    }
    assert_eq!((lines.is_complete(), lines.steps()), (false, 0));
    assert_eq!(lines.fill(&mut [0; 64]), 22);
}

#[test]
fn complete_transcript_has_no_more() {
    let mut setup = paper_setup();
    let mut machine = setup.start();
    let mut lines = machine.transcript(
        &mut setup.memory,
        &setup.timetable,
        &setup.trace,
        setup.budget,
    );
    in_parts(&mut lines, 4096);
    let mut out = [0xAA; 100];
    assert_eq!((lines.fill(&mut out), out), (0, [0xAA; 100]));
    assert_eq!((lines.is_complete(), lines.steps()), (true, 7));
    assert!(machine.is_halted());
}

// The transcript of a machine at NOPs with this clock and budget.
fn of_nops(clock: u64, halted: bool, budget: u64) -> String {
    let mut fields = fields_at(0x4400);
    (fields.clock, fields.halted) = (clock, halted);
    let mut machine = Machine::from_fields(paper_layout(), &fields).unwrap();
    let mut memory = Memory::zeroed();
    memory.set_word(0x4400, 0x4303);
    memory.set_word(0x4402, 0x4303);
    let (timetable, trace) = (Timetable::empty(), Trace::empty());
    let budget = Budget::new(budget).unwrap();
    let mut lines = machine.transcript(&mut memory, &timetable, &trace, budget);
    String::from_utf8(in_parts(&mut lines, 64)).unwrap()
}

#[test]
fn ends_without_a_step() {
    const HEADER: &str = "step\tkind\tclock\tpc\tsr\n";
    assert_eq!(of_nops(5, false, 0), format!("{HEADER}S\t0\t5\n"));
    assert_eq!(of_nops(5, true, 20), format!("{HEADER}H\t0\t5\n"));
    let late = LAST_CLOCK + 1;
    assert_eq!(of_nops(late, false, 20), format!("{HEADER}T\t0\t{late}\n"));
    assert_eq!(of_nops(late, true, 0), format!("{HEADER}H\t0\t{late}\n"));
    assert_eq!(of_nops(late, false, 0), format!("{HEADER}T\t0\t{late}\n"));
}

#[test]
fn ends_above_the_last_clock() {
    let late = LAST_CLOCK + 1;
    let lines = of_nops(LAST_CLOCK, false, 20);
    let end = format!("1\tR\t{late}\t4402\t0000\nT\t1\t{late}\n");
    assert!(lines.ends_with(&end), "{lines}");
}

#[test]
fn most_steps_of_all() {
    let mut setup = paper_setup();
    setup.memory.set_word(0x4400, 0x4303);
    setup.memory.set_word(0x4402, 0x4030); // MOV #4400 0
    setup.memory.set_word(0x4404, 0x4400);
    let mut machine = setup.start();
    let mut out = Vec::new();
    let mut lines = machine.transcript(
        &mut setup.memory,
        &setup.timetable,
        &setup.trace,
        Budget::MOST,
    );
    lines.write_to(&mut out).unwrap();
    assert!(out.ends_with(b"\nS\t1000000\t1500000\n"));
    assert_eq!(out.split(|byte| *byte == b'\n').count(), 1_000_003);
}

// A writer that has room for a few bytes.
struct Narrow(usize);

impl io::Write for Narrow {
    fn write(&mut self, bytes: &[u8]) -> io::Result<usize> {
        let taken = bytes.len().min(self.0);
        self.0 -= taken;
        Ok(taken)
    }

    fn flush(&mut self) -> io::Result<()> {
        Ok(())
    }
}

#[test]
fn writing_that_fails_is_told() {
    let mut setup = paper_setup();
    let mut machine = setup.start();
    let mut lines = machine.transcript(
        &mut setup.memory,
        &setup.timetable,
        &setup.trace,
        setup.budget,
    );
    let error = lines.write_to(&mut Narrow(30)).unwrap_err();
    assert_eq!(error.kind(), io::ErrorKind::WriteZero);
}

// A part of the transcript of a lent machine, marked where nothing is to be written.
fn transcribe(lent: &mut Lent, progress: &mut Progress) -> (u8, [u8; 100], u64) {
    let (mut out, mut written) = ([0xAA; 100], 0xAA);
    let Lent {
        machine,
        memory,
        layout,
        stamps,
        trace_stamps,
        trace_words,
        ..
    } = lent;
    let lists = Lists {
        stamps,
        trace_stamps,
        trace_words,
    };
    let answer = machine.transcribe(memory, layout, lists, progress, &mut out, &mut written);
    (answer, out, written)
}

// This edit of a fresh machine is refused wherever a step remains, and nothing is altered.
fn refused(number: u8, edit: impl Fn(&mut Lent)) {
    let mut lent = Lent::fresh();
    edit(&mut lent);
    for stage in [0, 1] {
        let progress = Progress {
            budget: lent.budget,
            steps: 3,
            stage,
        };
        let (mut lending, mut moving) = (lent.clone(), progress.clone());
        let answer = transcribe(&mut lending, &mut moving);
        assert_eq!(answer, (number, [0xAA; 100], 0xAA));
        assert_eq!((&lending, moving), (&lent, progress));
    }
}

#[test]
fn refusals_alter_nothing() {
    refused(1, |l| l.memory.truncate(65535));
    refused(2, |l| l.layout[4] = 0x8007);
    refused(3, |l| l.stamps = vec![6, 6]);
    refused(10, |l| l.trace_stamps = vec![6]);
    refused(10, |l| l.trace_words = vec![6]);
    refused(4, |l| l.machine.registers[3] = 1);
    refused(4, |l| l.machine.control[1] = 2);
    refused(5, |l| l.budget = 1_000_001);
}

#[test]
fn stage_above_2_is_complete() {
    for stage in [2, 3, 255] {
        let mut lent = Lent::fresh();
        let before = lent.clone();
        let progress = Progress {
            budget: 20,
            steps: 3,
            stage,
        };
        let mut moving = progress.clone();
        let answer = transcribe(&mut lent, &mut moving);
        assert_eq!(answer, (0, [0xAA; 100], 0));
        let complete = Progress {
            stage: 2,
            ..progress
        };
        assert_eq!((moving, lent), (complete, before));
    }
}

#[test]
fn steps_are_counted_on() {
    let mut lent = Lent::fresh();
    let mut progress = Progress {
        budget: 20,
        steps: 19,
        stage: 1,
    };
    let (answer, out, written) = transcribe(&mut lent, &mut progress);
    assert_eq!((answer, written), (0, 24));
    assert_eq!(&out[..24], b"20\tR\t1\t4402\t0000\nS\t20\t1\n");
    assert_eq!((progress.steps, progress.stage), (20, 2));
}
