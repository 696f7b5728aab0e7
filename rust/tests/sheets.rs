//! The worked sheets, and sheets that are refused.

mod support;

use enclave::{Budget, Cause, End, Kind, Memory, Refusal, Setup, SheetRefusal};
use support::{model_transcript, paper_setup, transcript, worked_sheet};

// The clocks at which a sheet's padded services start.
fn padded_clocks(name: &str) -> Vec<u64> {
    let text = transcript(&worked_sheet(name));
    let fields = text
        .lines()
        .map(|line| line.split('\t').collect::<Vec<_>>());
    let padded = fields.filter(|f| f[1] == "P");
    padded.map(|f| f[2].parse().unwrap()).collect()
}

// The registers with which a sheet's run ends.
fn last_registers(name: &str) -> [u16; 16] {
    let mut setup = Setup::read(&worked_sheet(name)).unwrap();
    let mut machine = setup.start();
    let stop = machine.run(
        &mut setup.memory,
        &setup.timetable,
        &setup.trace,
        setup.budget,
    );
    assert_eq!(stop.unwrap().end, End::Halted);
    *machine.registers()
}

#[test]
fn password_check_tells_nothing() {
    let right = padded_clocks("password-right");
    let stamps = Setup::read(&worked_sheet("password-right"))
        .unwrap()
        .timetable;
    let twelve_later: Vec<u64> = stamps.stamps().iter().map(|s| s + 12).collect();
    assert_eq!(right, twelve_later);
    assert_eq!(right, padded_clocks("password-wrong"));
    for name in ["password-right", "password-wrong"] {
        assert!(transcript(&worked_sheet(name)).ends_with("\t405\n"));
    }
    let [right, wrong] = ["password-right", "password-wrong"].map(last_registers);
    assert_eq!(right, wrong);
}

// The two sheets of the check that is not balanced.
const UNBALANCED: [&str; 2] = ["unbalanced-right", "unbalanced-wrong"];

// The lines of a transcript for the steps that begin outside, each without its step's number: kind,
// clock, pc and status.
fn outside_lines(name: &str, text: &str) -> Vec<[String; 4]> {
    let Setup { layout, memory, .. } = Setup::read(&worked_sheet(name)).unwrap();
    let mut begins_at = memory.word(0xFFFE);
    let mut lines = Vec::new();
    for line in text.lines().skip(1) {
        let fields: Vec<&str> = line.split('\t').collect();
        let [_, kind, clock, pc, status] = fields[..] else {
            break;
        };
        if !layout.code().contains(&begins_at) && !layout.data().contains(&begins_at) {
            lines.push([kind, clock, pc, status].map(String::from));
        }
        begins_at = u16::from_str_radix(pc, 16).unwrap();
    }
    lines
}

#[test]
fn unbalanced_transcripts_are_the_models() {
    for name in UNBALANCED {
        assert_eq!(transcript(&worked_sheet(name)), model_transcript(name));
    }
}

#[test]
fn unbalanced_check_tells_by_the_clock_alone() {
    let [right, wrong] = UNBALANCED.map(|name| outside_lines(name, &model_transcript(name)));
    let clocks = |lines: &[[String; 4]]| lines.iter().map(|l| l[1].clone()).collect::<Vec<_>>();
    assert_eq!(clocks(&right), ["2", "4", "6", "8", "32", "33"]);
    assert_eq!(clocks(&wrong), ["2", "4", "6", "8", "30", "31"]);
    for (r, w) in right.iter().zip(&wrong) {
        assert_eq!((&r[0], &r[2..]), (&w[0], &w[2..]));
    }
    let read_by_in = UNBALANCED.map(|name| last_registers(name)[10]);
    assert_eq!(read_by_in, [30, 28]);
}

// The registers with which a sheet's module is left, and the cycles that its visit took.
fn exit_of(name: &str) -> ([u16; 16], u64) {
    let mut setup = Setup::read(&worked_sheet(name)).unwrap();
    let mut machine = setup.start();
    let mut entered = None;
    loop {
        let inside = setup.layout.code().contains(&machine.pc());
        match entered {
            None if inside => entered = Some(machine.clock()),
            Some(clock) if !inside => return (*machine.registers(), machine.clock() - clock),
            _ => {}
        }
        machine
            .step(&mut setup.memory, &setup.timetable, &setup.trace)
            .unwrap();
    }
}

#[test]
fn unbalanced_sheets_differ_in_one_word_and_in_own_cycles() {
    let [right, wrong] = UNBALANCED.map(|name| String::from_utf8(worked_sheet(name)).unwrap());
    assert_eq!(right.lines().count(), wrong.lines().count());
    let differ = right.lines().zip(wrong.lines()).filter(|(r, w)| r != w);
    let lines: Vec<(&str, &str)> = differ.collect();
    assert_eq!(lines, [("M\t8100\t1234", "M\t8100\t4321")]);
    let [(right, right_cycles), (wrong, wrong_cycles)] = UNBALANCED.map(exit_of);
    assert_eq!((right, right_cycles, wrong_cycles), (wrong, 22, 20));
}

// The first kind of a sheet's steps that is a reset.
fn first_reset(name: &str) -> Option<Cause> {
    let mut setup = Setup::read(&worked_sheet(name)).unwrap();
    let mut machine = setup.start();
    for _ in 0..setup.budget.steps() {
        let kind = machine.step(&mut setup.memory, &setup.timetable, &setup.trace);
        if let Kind::Reset(cause) = kind.unwrap() {
            return Some(cause);
        }
    }
    None
}

#[test]
fn each_cause_has_its_sheet() {
    for cause in Cause::ALL {
        let name = format!("reset-{}", cause.number());
        assert_eq!(first_reset(&name), Some(cause));
    }
}

#[test]
fn chained_and_nested_kinds() {
    let kinds = |name| {
        let text = transcript(&worked_sheet(name));
        let steps = text
            .lines()
            .skip(1)
            .filter_map(|line| line.split('\t').nth(1));
        steps.collect::<String>()
    };
    assert!(kinds("chained").contains("PCB"), "{}", kinds("chained"));
    assert!(kinds("nested").contains('I'), "{}", kinds("nested"));
}

// A run of every budget up to 40 leaves what so many steps leave.
fn runs_as_it_steps(name: &str) {
    let mut stepped = Setup::read(&worked_sheet(name)).unwrap();
    let fresh = stepped.clone();
    let mut machine = stepped.start();
    for steps in 0..=40 {
        let mut setup = fresh.clone();
        let mut ran = setup.start();
        let budget = Budget::new(steps).unwrap();
        let stop = ran
            .run(&mut setup.memory, &setup.timetable, &setup.trace, budget)
            .unwrap();
        assert_eq!((&ran, &setup.memory), (&machine, &stepped.memory));
        assert_eq!(stop.end == End::Halted, machine.is_halted());
        assert!(stop.steps == steps || machine.is_halted());
        machine
            .step(&mut stepped.memory, &stepped.timetable, &stepped.trace)
            .unwrap();
    }
}

#[test]
fn run_leaves_what_its_steps_leave() {
    for name in [
        "document-01",
        "chained",
        "nested",
        "password-right",
        "reset-2",
        "reset-8",
    ] {
        runs_as_it_steps(name);
    }
}

#[test]
fn setup_of_the_papers_sheet() {
    let setup = paper_setup();
    let mut memory = Memory::zeroed();
    let words = [
        (0xFFFE, 0x4400),
        (0x4400, 0x4032),
        (0x4402, 0x0008),
        (0x4404, 0x4030),
        (0x4406, 0x8000),
        (0x4500, 0x1300),
        (0x4600, 0x0001),
        (0x8000, 0x4303),
        (0x8002, 0x4035),
        (0x8004, 0x4600),
        (0x8006, 0x4500),
    ];
    for (address, word) in words {
        memory.set_word(address, word);
    }
    assert_eq!(setup.memory, memory);
    assert_eq!(setup.layout, support::paper_layout());
    assert_eq!(setup.timetable.stamps(), [6]);
    assert!(setup.trace.is_empty());
    assert_eq!(setup.budget, Budget::new(20).unwrap());
}

#[test]
fn refused_sheet_tells_its_line() {
    let refused = |sheet: &[u8]| Setup::read(sheet).unwrap_err();
    let line = SheetRefusal {
        refusal: Refusal::Line,
        line: 1,
    };
    assert_eq!(refused(b""), line);
    let long = SheetRefusal {
        refusal: Refusal::Sheet,
        line: 0,
    };
    assert_eq!(refused(&vec![b'L'; 32769]), long);
    assert_eq!(transcript(b""), "E\t7\t1\n");
}

#[test]
fn sheet_of_4097_stamps_is_refused_at_its_last() {
    let sheet = |stamps: u64| {
        let lines: Vec<String> = (1..=stamps).map(|s| format!("A\t{s}\n")).collect();
        let lines = lines.concat();
        format!("L\t8000\t8008\t8100\t8104\t4500\n{lines}G\t0\n")
    };
    let taken = Setup::read(sheet(4096).as_bytes()).unwrap();
    assert_eq!(taken.timetable.stamps().len(), 4096);
    let refused = Setup::read(sheet(4097).as_bytes()).unwrap_err();
    let expected = SheetRefusal {
        refusal: Refusal::Timetable,
        line: 4098,
    };
    assert_eq!(refused, expected);
}

#[test]
fn memory_is_65536_bytes() {
    assert_eq!(Memory::try_from(vec![0; 65535]), Err(Refusal::Map));
    assert_eq!(Memory::try_from(vec![0; 65536]), Ok(Memory::zeroed()));
}
