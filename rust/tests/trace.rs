//! The trace: the words that IN gives, the requests that its records are, and the sheets that have one.

mod support;

use std::num::NonZeroU64;

use enclave::{
    Budget, End, Kind, Machine, Memory, Refusal, Register, Setup, Timetable, Trace, Transcript,
    LAST_CLOCK, MOST_STAMPS,
};
use support::{fields_at, paper_layout, paper_setup, paper_sheet, sheet_with, transcript};

fn register(number: u8) -> Register {
    Register::new(number).unwrap()
}

#[test]
fn trace_has_at_most_4096_records() {
    let (stamps, words) = ((1..=4097).collect::<Vec<u64>>(), vec![0; 4097]);
    let most = MOST_STAMPS;
    assert!(Trace::new(&stamps[..most], &words[..most]).is_ok());
    assert_eq!(Trace::new(&stamps, &words), Err(Refusal::Trace));
}

#[test]
fn stamps_of_a_trace_rise_from_1_to_2_to_the_62() {
    assert!(Trace::new(&[1, 2, LAST_CLOCK], &[0; 3]).is_ok());
    assert_eq!(Trace::new(&[], &[]), Ok(Trace::empty()));
    for stamps in [&[0, 1][..], &[1, LAST_CLOCK + 1], &[5, 5], &[6, 5]] {
        assert_eq!(Trace::new(stamps, &[0; 2]), Err(Refusal::Trace));
    }
}

#[test]
fn stamps_and_words_are_equally_many() {
    for (stamps, words) in [(&[6][..], &[][..]), (&[], &[1]), (&[6], &[1, 2])] {
        assert_eq!(Trace::new(stamps, words), Err(Refusal::Trace));
    }
}

#[test]
fn trace_tells_its_records() {
    let trace = Trace::new(vec![6, 9], vec![0x0102, 0xFFFF]).unwrap();
    assert_eq!(
        (trace.stamps(), trace.words()),
        (&[6, 9][..], &[0x0102, 0xFFFF][..])
    );
    assert_eq!(
        trace.records().collect::<Vec<_>>(),
        [(6, 0x0102), (9, 0xFFFF)]
    );
    assert_eq!((trace.is_empty(), Trace::empty().is_empty()), (false, true));
}

// A machine at IN 5, with this clock, and its memory.
fn reader_at(clock: u64) -> (Machine, Memory) {
    let mut fields = fields_at(0x4400);
    (fields.clock, fields.registers[5]) = (clock, 0xDEAD);
    let mut memory = Memory::zeroed();
    memory.set_word(0x4400, 0x0015);
    let machine = Machine::from_fields(paper_layout(), &fields).unwrap();
    (machine, memory)
}

// The word that IN gives at this clock, by a step and by a run.
fn word_at(clock: u64, trace: &Trace<'_>) -> u16 {
    let none = Timetable::empty();
    let (mut stepped, mut memory) = reader_at(clock);
    let kind = stepped.step(&mut memory, &none, trace);
    assert_eq!((kind, stepped.clock()), (Ok(Kind::Ran), clock + 2));
    let (mut ran, mut memory) = reader_at(clock);
    let stop = ran.run(&mut memory, &none, trace, Budget::new(1).unwrap());
    assert_eq!(stop.map(|s| s.steps), Ok(1));
    assert_eq!(ran, stepped);
    stepped.register(register(5))
}

#[test]
fn in_gives_the_word_of_the_last_record() {
    let trace = Trace::new(&[10, 12, 20], &[0xAAAA, 0xBBBB, 0xCCCC]).unwrap();
    let told = [
        (0, 0),
        (8, 0),
        (9, 0), // a record that falls due in IN's own cycles does not count
        (10, 0xAAAA),
        (11, 0xAAAA),
        (12, 0xBBBB),
        (19, 0xBBBB),
        (20, 0xCCCC),
        (0x1_2345, 0xCCCC),
        (LAST_CLOCK, 0xCCCC),
    ];
    for (clock, word) in told {
        assert_eq!(word_at(clock, &trace), word, "at {clock}");
    }
}

#[test]
fn in_gives_0_where_all_records_lie_ahead() {
    let trace = Trace::new(&[LAST_CLOCK], &[0xAAAA]).unwrap();
    assert_eq!(word_at(0x1_2345, &trace), 0);
    assert_eq!(word_at(LAST_CLOCK, &trace), 0xAAAA);
}

#[test]
fn in_gives_the_clock_where_there_is_no_record() {
    assert_eq!(word_at(0, &Trace::empty()), 0);
    assert_eq!(word_at(0x1_2345, &Trace::empty()), 0x2345);
}

#[test]
fn last_of_4096_records_is_found() {
    let stamps: Vec<u64> = (1..=4096).map(|i| 3 * i).collect();
    let words: Vec<u16> = (1..=4096).collect();
    let trace = Trace::new(&stamps, &words).unwrap();
    for clock in [0, 2, 3, 5, 6, 300, 301, 302, 12_287, 12_288, 1 << 40] {
        let last = u16::try_from((clock / 3).min(4096)).unwrap();
        assert_eq!(word_at(clock, &trace), last, "at {clock}");
    }
}

#[test]
fn words_are_not_found_by_the_timetables_place() {
    let (mut machine, mut memory) = reader_at(10);
    let timetable = Timetable::new(&[1, 2, 3, 50]).unwrap();
    let trace = Trace::new(&[5, 20, 30, 40], &[0x0005, 0x0020, 0x0030, 0x0040]).unwrap();
    machine.step(&mut memory, &timetable, &trace).unwrap();
    assert_eq!(machine.register(register(5)), 0x0005);
}

#[test]
fn records_are_requests() {
    let papers = transcript(paper_sheet().as_bytes());
    for lines in [
        "T 6 1234/",
        "A 6/T 6 1234/",
        "T 6 1234/A 6/",
        "T 6 0000/T 7 0001/",
    ] {
        assert_eq!(transcript(sheet_with(lines).as_bytes()), papers, "{lines}");
    }
    let by_stamp = |stamp: u64| transcript(sheet_with(&format!("A {stamp}/")).as_bytes());
    let by_record = |stamp: u64| transcript(sheet_with(&format!("T {stamp} 1234/")).as_bytes());
    for stamp in 1..30 {
        assert_eq!(by_record(stamp), by_stamp(stamp), "{stamp}");
    }
}

#[test]
fn earlier_of_stamp_and_record_fills_the_slot() {
    let pending = |stamp: u64, record: u64| {
        let mut setup = paper_setup();
        setup.memory.set_word(0x4402, 0); // GIE stays clear
        let mut machine = setup.start();
        let (timetable, trace) = (
            Timetable::new(vec![stamp]),
            Trace::new(vec![record], vec![7]),
        );
        let kind = machine.step(&mut setup.memory, &timetable.unwrap(), &trace.unwrap());
        assert_eq!(kind, Ok(Kind::Ran));
        machine.pending().map(NonZeroU64::get)
    };
    assert_eq!(pending(1, 2), Some(1));
    assert_eq!(pending(2, 1), Some(1));
    assert_eq!(pending(2, 2), Some(2));
    assert_eq!(pending(3, 2), Some(2));
    assert_eq!(pending(3, 3), None);
}

// IN 2, three times, and HLT: the status on a transcript's line is IN's word.
fn reading_sheet(records: &str) -> Vec<u8> {
    let sheet = format!(
        "L 8000 8008 8100 8104 4500/M FFFE 4400/M 4400 0012/{records}M 4402 0012/M 4404 0012/\
         M 4406 0001/G 20/"
    );
    sheet.replace(' ', "\t").replace('/', "\n").into_bytes()
}

const READ: &str = "\
step\tkind\tclock\tpc\tsr
1\tR\t2\t4402\t0000
2\tR\t4\t4404\t1230
3\tR\t6\t4406\t5670
4\tH\t7\t4408\t5670
H\t4\t7
";

#[test]
fn sheet_has_a_trace() {
    let sheet = reading_sheet("T 2 1230/A 9/T 3 5670/T 5 FFFF/");
    let setup = Setup::read(&sheet).unwrap();
    assert_eq!(setup.timetable.stamps(), [9]);
    assert_eq!(setup.trace.stamps(), [2, 3, 5]);
    assert_eq!(setup.trace.words(), [0x1230, 0x5670, 0xFFFF]);
    assert_eq!(transcript(&sheet), READ);
}

#[test]
fn sheet_without_t_lines_reads_the_clock() {
    let lines = transcript(&reading_sheet("A 9/"));
    assert!(lines.contains("\n2\tR\t4\t4404\t0002\n"), "{lines}");
    assert!(
        lines.ends_with("\n3\tR\t6\t4406\t0004\n4\tH\t7\t4408\t0004\nH\t4\t7\n"),
        "{lines}"
    );
}

#[test]
fn transcript_has_the_traces_words() {
    for size in [Transcript::LINE_SIZE, 100, 4096] {
        let mut setup = Setup::read(&reading_sheet("")).unwrap();
        let trace = Trace::new(&[2, 3, 5], &[0x1230, 0x5670, 0xFFFF]).unwrap();
        let mut machine = setup.start();
        let mut lines =
            machine.transcript(&mut setup.memory, &setup.timetable, &trace, setup.budget);
        let (mut all, mut part) = (Vec::new(), vec![0; size]);
        while !lines.is_complete() {
            let filled = lines.fill(&mut part);
            all.extend_from_slice(&part[..filled]);
        }
        assert_eq!(String::from_utf8(all).unwrap(), READ);
    }
}

#[test]
fn run_leaves_what_its_steps_leave() {
    let sheet = reading_sheet("T 2 1230/T 3 5670/");
    for budget in 0..=5 {
        let (mut setup, mut stepped) = (Setup::read(&sheet).unwrap(), Setup::read(&sheet).unwrap());
        let (mut ran, mut by_hand) = (setup.start(), stepped.start());
        let most = Budget::new(budget).unwrap();
        let stop = ran.run(&mut setup.memory, &setup.timetable, &setup.trace, most);
        for _ in 0..budget {
            let kind = by_hand.step(&mut stepped.memory, &stepped.timetable, &stepped.trace);
            kind.unwrap();
        }
        assert_eq!((&ran, &setup.memory), (&by_hand, &stepped.memory));
        assert_eq!(stop.unwrap().end == End::Halted, budget >= 4);
    }
}
