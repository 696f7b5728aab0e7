//! Each refusal as the library answers it, with all that was lent untouched.

mod support;

use enclave::raw::{self, Places};
use enclave::Refusal;
use support::raw::Lent;

// A fresh machine with this edit.
fn edited(edit: impl Fn(&mut Lent)) -> Lent {
    let mut lent = Lent::fresh();
    edit(&mut lent);
    lent
}

#[test]
fn fresh_machine_is_taken() {
    let mut lent = Lent::fresh();
    assert_eq!((lent.step(), lent.kind, lent.cause), (0, b'R', 0));
    assert_eq!((lent.run(), lent.end, lent.steps), (0, b'S', 20));
    let mut lent = Lent::fresh();
    assert_eq!((lent.run_to(), lent.end, lent.steps), (0, b'S', 20));
    let mut lent = edited(|l| l.stop = 0x4406);
    assert_eq!((lent.run_to(), lent.end, lent.steps), (0, b'A', 3));
}

#[test]
fn refusal_1_map() {
    for size in [0, 65535, 65537] {
        let lent = edited(|l| l.memory.resize(size, 0));
        lent.refused(1);
        let mut started = lent.clone();
        assert_eq!((started.start(), started), (1, lent));
    }
}

#[test]
fn refusal_2_fence() {
    let broken = [
        [0x8001, 0x8008, 0x8100, 0x8104, 0x4500],
        [0x8008, 0x8008, 0x8100, 0x8104, 0x4500],
        [0x8000, 0x8008, 0x8104, 0x8100, 0x4500],
        [0x8000, 0x8008, 0x8006, 0x8104, 0x4500],
        [0x8000, 0x8008, 0x8100, 0x8104, 0x8007],
        [0x8000, 0x8008, 0x8100, 0x8104, 0x8102],
    ];
    for layout in broken {
        let lent = edited(|l| l.layout = layout);
        lent.refused(2);
        let mut asked = lent.clone();
        assert_eq!((asked.access(0, 0), asked), (2, lent));
    }
}

#[test]
fn refusal_3_timetable() {
    let long: Vec<u64> = (1..=4097).collect();
    let over = vec![(1 << 62) + 1];
    for stamps in [vec![0], over, vec![5, 5], vec![6, 5], long.clone()] {
        edited(|l| l.stamps = stamps.clone()).refused(3);
    }
    edited(|l| l.stamps = long[..4096].to_vec()).steps();
    edited(|l| l.stamps = vec![1 << 62]).steps();
    edited(|l| l.stamps = Vec::new()).steps();
}

#[test]
fn refusal_10_trace() {
    let traced = |stamps: &[u64], words: usize| {
        edited(|l| {
            l.trace_stamps = stamps.to_vec();
            l.trace_words = vec![0xAA; words];
        })
    };
    let long: Vec<u64> = (1..=4097).collect();
    for stamps in [&[0][..], &[0, 1], &[(1 << 62) + 1], &[5, 5], &[6, 5], &long] {
        traced(stamps, stamps.len()).refused(10);
    }
    for (stamps, words) in [(0, 1), (1, 0), (1, 2), (2, 1), (4096, 4095), (4095, 4096)] {
        traced(&long[..stamps], words).refused(10);
    }
    traced(&long[..4096], 4096).steps();
    traced(&long[..4096], 4097).refused(10);
    traced(&[1, 1 << 62], 2).steps();
    traced(&[600], 1).steps();
    traced(&[], 0).steps();
}

#[test]
fn refusal_4_frame() {
    edited(|l| l.machine.registers[0] = 0x4401).refused(4);
    edited(|l| l.machine.registers[1] = 1).refused(4);
    edited(|l| l.machine.registers[3] = 1).refused(4);
    edited(|l| l.machine.control[0] = 1).refused(4);
    edited(|l| l.machine.time = [100, 101, 0]).refused(4);
    edited(|l| l.machine.time = [100, 0, 100]).refused(4);
    edited(|l| l.machine.control[2] = 1).refused(4);
    edited(|l| l.machine.time = [100, 100, 101]).steps();
}

#[test]
fn refusal_5_distance() {
    for budget in [1_000_001, u64::MAX] {
        let lent = edited(|l| l.budget = budget);
        let mut ran = lent.clone();
        assert_eq!((ran.run(), &ran), (5, &lent));
        lent.run_to_refused(5);
    }
    assert_eq!(edited(|l| l.budget = 1_000_000).run(), 0);
    assert_eq!(edited(|l| l.budget = 1_000_000).run_to(), 0);
}

#[test]
fn refusal_11_landmark() {
    for stop in [0x0001, 0x4401, 0x4501, 0x8001, 0x8101, 0xFFFF] {
        let odd = edited(|l| l.stop = stop);
        odd.run_to_refused(11);
        odd.steps();
        assert_eq!(odd.clone().run(), 0);
        edited(|l| (l.stop, l.machine.control[1]) = (stop, 1)).run_to_refused(11);
        edited(|l| (l.stop, l.budget) = (stop, 0)).run_to_refused(11);
    }
    for stop in [0x0000, 0x4400, 0x8000, 0x8002, 0x8100, 0xFFFE] {
        assert_eq!(edited(|l| l.stop = stop).run_to(), 0);
    }
}

#[test]
fn refusal_6_clock() {
    edited(|l| l.machine.time[0] = (1 << 62) + 1).refused(6);
    edited(|l| l.machine.time[0] = u64::MAX).refused(6);
    edited(|l| l.machine.time[0] = 1 << 62).steps();
}

#[test]
fn refusals_come_in_their_order() {
    let mut lent = edited(|l| {
        l.memory.pop();
        l.layout[4] = 0x8007;
        l.stamps = vec![0];
        l.trace_words = vec![0];
        l.machine.registers[3] = 1;
        l.budget = 1_000_001;
        l.stop = 0x4401;
        l.machine.time[0] = (1 << 62) + 1;
    });
    lent.refused(1);
    lent.memory.push(0);
    lent.refused(2);
    lent.layout[4] = 0x4500;
    lent.refused(3);
    lent.stamps = vec![6];
    lent.refused(10);
    lent.trace_stamps = vec![6];
    lent.refused(4);
    lent.machine.registers[3] = 0;
    assert_eq!((lent.clone().run(), lent.clone().step()), (5, 6));
    lent.run_to_refused(5);
    lent.budget = 0;
    assert_eq!((lent.clone().run(), lent.clone().step()), (6, 6));
    lent.run_to_refused(11);
    lent.stop = 0x4400;
    lent.refused(6);
}

// A sheet is refused by this number for this line, and nothing but the line is written.
fn sheet_refused(sheet: &[u8], number: u8, line: u64) {
    let mut marks = Places {
        layout: [0xAA; 5],
        count: 0xAA,
        records: 0xAA,
        budget: 0xAA,
        ..Places::zeroed()
    };
    marks.memory.fill(0xAA);
    marks.stamps.fill(0xAA);
    marks.trace_stamps.fill(0xAA);
    marks.trace_words.fill(0xAA);
    let (mut places, mut told) = (marks.clone(), 0xAA);
    assert_eq!((places.read(sheet, &mut told), told), (number, line));
    assert!(places == marks);
}

#[test]
fn refusals_of_a_sheet() {
    const L: &str = "L\t8000\t8008\t8100\t8104\t4500\n";
    sheet_refused(b"L\t8000\t8008\t8100\t8104\t8007\n", 2, 1);
    sheet_refused(format!("{L}A\t6\nA\t6\nG\t20\n").as_bytes(), 3, 3);
    sheet_refused(format!("{L}M\t4400\t4303\nG\t1000001\n").as_bytes(), 5, 3);
    sheet_refused(format!("{L}M\t4401\t4303\nG\t20\n").as_bytes(), 7, 2);
    sheet_refused(format!("{L}G\t20\nG\t20\n").as_bytes(), 7, 3);
    for (records, number, line) in [
        ("T\t0\t0001\n", 10, 2),
        ("T\t4611686018427387905\t0001\n", 10, 2),
        ("T\t6\t0001\nT\t6\t0001\n", 10, 3),
        ("T\t6\t0001\nA\t9\nT\t5\t0001\n", 10, 4),
        ("A\t6\nT\t6\t0001\nA\t6\n", 3, 4),
        ("T\t06\t0001\n", 7, 2),
        ("T\t6\t00a1\n", 7, 2),
        ("T\t6\t001\n", 7, 2),
        ("T\t6\n", 7, 2),
        ("T\t0\t1\n", 7, 2),
        ("T\t6\t0001\t0001\n", 7, 2),
    ] {
        sheet_refused(format!("{L}{records}G\t20\n").as_bytes(), number, line);
    }
    sheet_refused(L.as_bytes(), 7, 2);
    sheet_refused(b"", 7, 1);
    sheet_refused(&vec![b'L'; 32769], 8, 0);
}

#[test]
fn refusal_9_word() {
    let (mut fields, mut length) = ([0xAA; 4], 0xAA);
    let answer = raw::read(0x0000, 0, &mut fields, &mut length);
    assert_eq!((answer, fields, length), (9, [0xAA; 4], 0xAA));
    let unwritable = [
        [16, 0, 0, 0],
        [7, 3, 3, 0],
        [7, 5, 0, 0],
        [7, 16, 5, 0],
        [7, 5, 16, 0],
        [7, 0x105, 5, 0],
        [8, 2, 5, 0],
        [9, 5, 2, 0],
        [0x100, 0, 0, 0],
    ];
    for fields in unwritable {
        let (mut first, mut second, mut length) = (0xAA, 0xAA, 0xAA);
        let answer = raw::write(&fields, &mut first, &mut second, &mut length);
        assert_eq!((answer, first, second, length), (9, 0xAA, 0xAA, 0xAA));
    }
}

#[test]
fn numbers_and_words() {
    let words = Refusal::ALL.map(Refusal::word).join(" ");
    assert_eq!(
        words,
        "map fence timetable trace frame distance landmark clock line sheet word"
    );
    let numbers = Refusal::ALL.map(Refusal::number);
    assert_eq!(numbers, [1, 2, 3, 10, 4, 5, 11, 6, 7, 8, 9]);
    assert_eq!(Refusal::from_number(9), Some(Refusal::Word));
    assert_eq!(Refusal::from_number(10), Some(Refusal::Trace));
    assert_eq!(Refusal::from_number(11), Some(Refusal::Landmark));
    assert_eq!(
        (Refusal::from_number(0), Refusal::from_number(12)),
        (None, None)
    );
}
