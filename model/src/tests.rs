//! Tests. Expected values are worked out by hand from document 01, those of
//! the ride trace, the stop address and the order of looking at words from
//! document 02, requests a to c.

use crate::*;

const LAYOUT: Layout = Layout {
    code_start: 0x8000,
    code_end: 0x8008,
    data_start: 0x8100,
    data_end: 0x8104,
    service: 0x4500,
};

fn world(words: &[(u16, u16)]) -> Vec<u8> {
    let mut memory = vec![0; MEMORY_BYTES];
    for &(address, word) in words {
        write_word(&mut memory, address, word);
    }
    memory
}

/// A machine about to execute at pc, come from the previous address.
fn machine_at(previous: u16, pc: u16) -> Machine {
    let mut machine = Machine::start(&world(&[(0xFFFE, pc)])).unwrap();
    machine.previous = previous;
    machine
}

/// A visit held with GIE, stopped after 8000, with age 1.
fn visit() -> Option<SavedContext> {
    let mut registers = [0; 16];
    registers[PC] = 0x8002;
    registers[SR] = GIE;
    registers[7] = 0x7777;
    Some(SavedContext {
        registers,
        previous: 0x8000,
        age: 1,
    })
}

/// Sheet text as document 01 shows it: spaces for tabs, slashes for newlines.
fn sheet(text: &str) -> Vec<u8> {
    let mut bytes = Vec::new();
    for line in text.split('/') {
        bytes.extend_from_slice(line.trim().replace(' ', "\t").as_bytes());
        bytes.push(b'\n');
    }
    bytes
}

/// Transcript text: spaces for tabs, a newline at the end of each line.
fn output(text: &str) -> Vec<u8> {
    let mut bytes = Vec::new();
    for line in text.trim().lines() {
        bytes.extend_from_slice(line.trim().replace(' ', "\t").as_bytes());
        bytes.push(b'\n');
    }
    bytes
}

/// Document 01's sheet, with these A lines.
fn paper_sheet(stamps: &[u64]) -> Vec<u8> {
    let lines: Vec<String> = stamps.iter().map(|stamp| format!("A {stamp} / ")).collect();
    paper_sheet_with(&lines.concat())
}

/// Document 01's sheet, with these lines, each with its slash, for its A line.
fn paper_sheet_with(lines: &str) -> Vec<u8> {
    sheet(&format!(
        "L 8000 8008 8100 8104 4500 / M FFFE 4400 / M 4400 4032 / M 4402 0008 / M 4404 4030 \
         / M 4406 8000 / M 4500 1300 / M 4600 0001 / M 8000 4303 / M 8002 4035 / M 8004 4600 \
         / M 8006 4500 / {lines}G 20"
    ))
}

/// The memory of document 01's sheet.
fn paper_memory() -> Vec<u8> {
    world(&[
        (0xFFFE, 0x4400),
        (0x4400, 0x4032),
        (0x4402, 0x0008),
        (0x4404, 0x4030),
        (0x4406, 0x8000),
        (0x4500, 0x1300),
        (0x4600, 0x0001),
        (0x8000, 0x4303),
        (0x8002, 0x4035),
        (0x8004, 0x4600),
        (0x8006, 0x4500),
    ])
}

/// One line of a transcript.
fn line(bytes: &[u8], number: usize) -> String {
    let text = std::str::from_utf8(bytes).unwrap();
    text.lines().nth(number).unwrap().replace('\t', " ")
}

/// Three records, at 10, 20 and 30.
const RIDE: Trace = Trace {
    stamps: &[10, 20, 30],
    words: &[0x1111, 0x2222, 0x3333],
};

/// The trace of a sheet, of words that do not matter.
fn trace_at(stamps: &[u64]) -> Trace<'_> {
    Trace {
        stamps,
        words: &[0; 4100][..stamps.len()],
    }
}

fn one(machine: &mut Machine, memory: &mut [u8]) -> Outcome {
    machine.step(memory, &LAYOUT, &[], NO_TRACE).unwrap()
}

// "Bench sheet"

#[test]
fn paper_sheet_byte_for_byte() {
    let expected = output(
        "step kind clock pc sr
         1 R 2 4404 0008
         2 R 4 8000 0008
         3 R 5 8002 0008
         4 P 18 4500 0000
         5 B 24 8006 0008
         6 R 26 4600 0008
         7 H 27 4602 0008
         H 7 27",
    );
    assert_eq!(bench(&paper_sheet(&[6])), expected);
}

// "Settled beforehand"

#[test]
fn stamp_5_pads_step_3_to_17() {
    assert_eq!(line(&bench(&paper_sheet(&[5])), 3), "3 P 17 4500 0000");
}

#[test]
fn stamp_7_pads_step_4_to_19() {
    assert_eq!(line(&bench(&paper_sheet(&[7])), 4), "4 P 19 4500 0000");
}

#[test]
fn stamp_4_is_plain_in_step_2_at_10() {
    assert_eq!(line(&bench(&paper_sheet(&[4])), 2), "2 I 10 4500 0000");
    let mut memory = paper_memory();
    let mut machine = Machine::start(&memory).unwrap();
    assert_eq!(
        machine.step(&mut memory, &LAYOUT, &[4], NO_TRACE),
        Ok(Outcome::Ran)
    );
    assert_eq!(
        machine.step(&mut memory, &LAYOUT, &[4], NO_TRACE),
        Ok(Outcome::Plain)
    );
    assert_eq!(machine.clock, 10);
    assert_eq!(machine.registers[SP], 0xFFFC);
    assert_eq!(machine.previous, 0xFFFE);
    assert_eq!(machine.slot, None);
    assert_eq!(read_word(&memory, 0xFFFE), 0x8000);
    assert_eq!(read_word(&memory, 0xFFFC), 0x0008);
}

#[test]
fn settled_words() {
    assert_eq!(decode(0x4303, 0x1234), Some((Instruction::Nop, 1)));
    assert_eq!(decode(0x4500, 0x1234), Some((Instruction::Jmp(5), 1)));
    for second in [0x0000, 0x0001, 0xFFFF] {
        assert_eq!(decode(0x0000, second), None);
    }
    assert_eq!(decode(0xE035, 0xFFFE), None);
    assert_eq!(decode(0xE035, 0xFFFF), Some((Instruction::Not(5), 2)));
}

#[test]
fn settled_sums() {
    assert_eq!(compute(Operation::Add, 0x0001, 0xFFFF), (0x0000, Z));
    assert_eq!(compute(Operation::Add, 0xFFFF, 0x0001), (0x0000, Z));
    assert_eq!(compute(Operation::Add, 0x0001, 0x7FFF), (0x8000, N | C | V));
    assert_eq!(compute(Operation::Add, 0x7FFF, 0x0001), (0x8000, N | C | V));
    assert_eq!(compute(Operation::Sub, 0x0001, 0x0000), (0xFFFF, N | C));
    assert_eq!(compute(Operation::Cmp, 0x0001, 0x0000), (0xFFFF, N | C));
}

#[test]
fn settled_access() {
    assert_eq!(LAYOUT.access(0x4404, Right::Execute, 0x8000), Ok(true));
    assert_eq!(LAYOUT.access(0x4404, Right::Execute, 0x8002), Ok(false));
}

#[test]
fn settled_service_address() {
    let refused = Layout {
        service: 0x8007,
        ..LAYOUT
    };
    let taken = Layout {
        service: 0x8008,
        ..LAYOUT
    };
    assert_eq!(refused.access(0x4404, Right::Execute, 0x8000), Err(2));
    assert_eq!(taken.access(0x4404, Right::Execute, 0x8000), Ok(true));
    assert_eq!(
        bench(&sheet("L 8000 8008 8100 8104 8007 / G 0")),
        output("E 2 1")
    );
    assert_eq!(
        bench(&sheet("L 8000 8008 8100 8104 8008 / G 0")),
        output("step kind clock pc sr\nS 0 0")
    );
}

#[test]
fn settled_number_of_stamps() {
    let mut memory = paper_memory();
    let all: Vec<u64> = (1..=4097).collect();
    let mut machine = Machine::start(&memory).unwrap();
    assert_eq!(machine.step(&mut memory, &LAYOUT, &all, NO_TRACE), Err(3));
    assert!(machine
        .step(&mut memory, &LAYOUT, &all[..4096], NO_TRACE)
        .is_ok());
    // The same on a sheet: line 1 is L, the stamps are lines 2 to 4098.
    let mut text = String::from("L\t8000\t8008\t8100\t8104\t4500\n");
    for stamp in 1..=4096 {
        text += &format!("A\t{stamp}\n");
    }
    let taken = text.clone() + "G\t0\n";
    assert_eq!(
        bench(taken.as_bytes()),
        output("step kind clock pc sr\nS 0 0")
    );
    let refused = text + "A\t4097\nG\t0\n";
    assert_eq!(bench(refused.as_bytes()), output("E 3 4098"));
}

#[test]
fn settled_clock() {
    let mut memory = paper_memory();
    let mut machine = Machine::start(&memory).unwrap();
    machine.clock = CLOCK_LIMIT + 1;
    let before = machine;
    assert_eq!(machine.step(&mut memory, &LAYOUT, &[], NO_TRACE), Err(6));
    assert_eq!(
        machine.run(&mut memory, &LAYOUT, &[], NO_TRACE, Stop::Never, 5),
        Err(6)
    );
    assert_eq!(machine, before);
    machine.clock = CLOCK_LIMIT;
    let mut other = machine;
    assert_eq!(
        machine.step(&mut memory, &LAYOUT, &[], NO_TRACE),
        Ok(Outcome::Ran)
    );
    assert_eq!(machine.clock, CLOCK_LIMIT + 2);
    assert_eq!(
        other.run(&mut memory, &LAYOUT, &[], NO_TRACE, Stop::Never, 5),
        Ok((End::Clock, 1))
    );
}

// "Memory, sections, registers"

#[test]
fn words_are_low_byte_first_and_drop_bit_0() {
    let mut memory = vec![0; MEMORY_BYTES];
    write_word(&mut memory, 0xFFFF, 0x1234);
    assert_eq!((memory[0xFFFE], memory[0xFFFF]), (0x34, 0x12));
    assert_eq!(read_word(&memory, 0xFFFE), 0x1234);
    assert_eq!(read_word(&memory, 0xFFFF), 0x1234);
}

#[test]
fn layout_rules() {
    let of = |a, b, c, d, e| {
        Layout {
            code_start: a,
            code_end: b,
            data_start: c,
            data_end: d,
            service: e,
        }
        .valid()
    };
    assert!(of(0x8000, 0x8008, 0x8100, 0x8104, 0x4500));
    assert!(of(0x8000, 0x8008, 0x8008, 0x8104, 0x4500));
    assert!(of(0x8100, 0x8104, 0x8000, 0x8100, 0x4500));
    assert!(of(0x0000, 0x0002, 0xFFFC, 0xFFFE, 0x4500));
    assert!(of(0x8000, 0x8008, 0x8100, 0x8104, 0xFFFE));
    assert!(!of(0x8001, 0x8008, 0x8100, 0x8104, 0x4500));
    assert!(!of(0x8000, 0x8007, 0x8100, 0x8104, 0x4500));
    assert!(!of(0x8000, 0x8008, 0x8101, 0x8104, 0x4500));
    assert!(!of(0x8000, 0x8008, 0x8100, 0x8103, 0x4500));
    assert!(!of(0x8000, 0x8008, 0x8100, 0x8104, 0x4501));
    assert!(!of(0x8008, 0x8008, 0x8100, 0x8104, 0x4500));
    assert!(!of(0x8000, 0x8008, 0x8104, 0x8104, 0x4500));
    assert!(!of(0x8000, 0x8102, 0x8100, 0x8104, 0x4500));
    assert!(!of(0x8102, 0x8200, 0x8100, 0x8104, 0x4500));
    assert!(!of(0x8000, 0x8008, 0x8100, 0x8104, 0x8000));
    assert!(!of(0x8000, 0x8008, 0x8100, 0x8104, 0x8102));
}

#[test]
fn access_table() {
    use Right::*;
    for (from, inside) in [
        (0x8000, true),
        (0x8007, true),
        (0x8008, false),
        (0x8100, false),
    ] {
        for right in [Execute, Read, Write] {
            let entry = right == Execute;
            let other_code = inside && right == Execute;
            let data = inside && right != Execute;
            let outside = !inside || right == Execute;
            assert_eq!(LAYOUT.may(from, right, 0x8000), entry);
            assert_eq!(LAYOUT.may(from, right, 0x8001), other_code);
            assert_eq!(LAYOUT.may(from, right, 0x8007), other_code);
            assert_eq!(LAYOUT.may(from, right, 0x8100), data);
            assert_eq!(LAYOUT.may(from, right, 0x8103), data);
            assert_eq!(LAYOUT.may(from, right, 0x7FFF), outside);
            assert_eq!(LAYOUT.may(from, right, 0x8008), outside);
            assert_eq!(LAYOUT.may(from, right, 0x8104), outside);
            assert_eq!(LAYOUT.may(from, right, 0xFFFF), outside);
        }
    }
}

#[test]
fn special_registers() {
    // MOV #5555 to r0, r1, r3, r15 from outside.
    for (word, register, value) in [
        (0x4030, PC, 0x5554),
        (0x4031, SP, 0x5554),
        (0x4033, ZERO, 0),
        (0x403F, 15, 0x5555),
    ] {
        let mut memory = world(&[(0x4400, word), (0x4402, 0x5555)]);
        let mut machine = machine_at(0xFFFE, 0x4400);
        assert_eq!(one(&mut machine, &mut memory), Outcome::Ran);
        assert_eq!(machine.registers[register], value);
    }
}

#[test]
fn inside_keeps_gie() {
    // MOV #w 2 inside and outside, over a status with GIE and without.
    for (pc, old, new, expected) in [
        (0x8000, 0x0008, 0x0000, 0x0008),
        (0x8000, 0x0000, 0xFFFF, 0xFFF7),
        (0x4400, 0x0008, 0x0000, 0x0000),
        (0x4400, 0x0000, 0xFFFF, 0xFFFF),
    ] {
        let mut memory = world(&[(pc, 0x4032), (pc + 2, new)]);
        let mut machine = machine_at(0xFFFE, pc);
        machine.registers[SR] = old;
        assert_eq!(one(&mut machine, &mut memory), Outcome::Ran);
        assert_eq!(machine.registers[SR], expected);
    }
    // NOT 2 over 0000: stored, then N and C laid over it.
    for (pc, expected) in [(0x8000, 0xFEF5), (0x4400, 0xFEFD)] {
        let mut memory = world(&[(pc, 0xE032), (pc + 2, 0xFFFF)]);
        let mut machine = machine_at(0xFFFE, pc);
        assert_eq!(one(&mut machine, &mut memory), Outcome::Ran);
        assert_eq!(machine.registers[SR], expected);
    }
    // RETI inside, no visit held, its stack in the data section.
    let mut memory = world(&[(0x8000, 0x1300), (0x8100, 0xFFFF), (0x8102, 0x4601)]);
    let mut machine = machine_at(0xFFFE, 0x8000);
    machine.registers[SP] = 0x8100;
    assert_eq!(one(&mut machine, &mut memory), Outcome::Ran);
    assert_eq!(machine.registers[SR], 0xFFF7);
    assert_eq!(machine.registers[PC], 0x4600);
    assert_eq!(machine.registers[SP], 0x8104);
    assert_eq!(machine.clock, 5);
}

// "Instruction words"

/// A row of the table: its words as they stand there, its instruction of s, d
/// and the second word, and which registers it leaves out.
struct Row {
    words: &'static str,
    instruction: fn(u8, u8, u16) -> Instruction,
    leaves_out: fn(u8, u8) -> bool,
}

/// The table, with a row each for ADD, SUB, CMP and AND.
static TABLE: [Row; 16] = {
    use Instruction::*;
    use Operand::*;
    use Operation::*;
    [
        row("0001", |_, _, _| Hlt),
        row("001d", |_, d, _| In(d)),
        row("002s", |s, _, _| Out(s)),
        row("003s", |s, _, _| Jz(s)),
        row("1300", |_, _, _| Reti),
        row("4303", |_, _, _| Nop),
        row("4s00", |s, _, _| Jmp(s)),
        row("4s0d", |s, d, _| Mov(Register(s), d)).but_not(|s, d| d == 0 || s == 3 && d == 3),
        row("4s2d", |s, d, _| Mov(Pointed(s), d)).but_not(|s, _| s == 0 || s == 2 || s == 3),
        row("4s8d 0000", |s, d, _| Store(s, d)).but_not(|_, d| d == 0 || d == 2 || d == 3),
        row("403d w", |_, d, w| Mov(Constant(w), d)),
        row("5s0d", |s, d, _| Compute(Add, s, d)),
        row("8s0d", |s, d, _| Compute(Sub, s, d)),
        row("9s0d", |s, d, _| Compute(Cmp, s, d)),
        row("Fs0d", |s, d, _| Compute(And, s, d)),
        row("E03d FFFF", |_, d, _| Not(d)),
    ]
};

/// A row that leaves out no register.
const fn row(words: &'static str, instruction: fn(u8, u8, u16) -> Instruction) -> Row {
    Row {
        words,
        instruction,
        leaves_out: |_, _| false,
    }
}

impl Row {
    const fn but_not(mut self, leaves_out: fn(u8, u8) -> bool) -> Row {
        self.leaves_out = leaves_out;
        self
    }

    /// Whether a first word has the row's digits, with any s and d.
    fn looks_like(&self, first: u16) -> bool {
        let word = format!("{first:04X}");
        let mut digits = self.words.chars().zip(word.chars());
        digits.all(|(here, there)| here == 's' || here == 'd' || here == there)
    }

    /// Whether a first word begins the row's instruction.
    fn has(&self, first: u16) -> bool {
        let [s, d] = self.registers(first);
        self.looks_like(first) && !(self.leaves_out)(s, d)
    }

    /// The digits of a first word where s and d stand, 0 where they do not.
    fn registers(&self, first: u16) -> [u8; 2] {
        ['s', 'd'].map(|letter| {
            let place = self.words.find(letter);
            place.map_or(0, |place| (first >> (12 - 4 * place)) as u8 % 16)
        })
    }

    fn length(&self) -> u8 {
        self.words.split(' ').count() as u8
    }

    /// What two words are whose first the row has.
    fn read(&self, first: u16, second: u16) -> Option<(Instruction, u8)> {
        let fits = match self.words.split(' ').nth(1) {
            None | Some("w") => true,
            Some(word) => word == format!("{second:04X}"),
        };
        let [s, d] = self.registers(first);
        fits.then(|| ((self.instruction)(s, d, second), self.length()))
    }
}

#[test]
fn first_words_by_length_and_by_row() {
    // Begin no instruction, one of one word, one of two.
    let mut lengths = [0; 3];
    let mut rows = [0; 16];
    for first in 0..=0xFFFF {
        lengths[begins(first).unwrap_or(0) as usize] += 1;
        if let Some(place) = TABLE.iter().position(|row| row.has(first)) {
            rows[place] += 1;
        }
    }
    assert_eq!(lengths, [63_758, 1_538, 240]);
    // HLT, IN, OUT, JZ, RETI, NOP, JMP.
    assert_eq!(rows[..7], [1, 16, 16, 16, 1, 1, 16]);
    // MOV s d, MOV @s d, MOV s 0(d), MOV #w d.
    assert_eq!(rows[7..11], [16 * 15 - 1, 13 * 16, 16 * 13, 16]);
    // ADD, SUB, CMP, AND, NOT.
    assert_eq!(rows[11..], [16 * 16, 16 * 16, 16 * 16, 16 * 16, 16]);
}

/// The first words that more than one row takes, by what a row takes.
fn in_two_rows(takes: fn(&Row, u16) -> bool) -> Vec<u16> {
    let rows = |first| TABLE.iter().filter(|row| takes(row, first)).count();
    (0..=0xFFFF).filter(|&first| rows(first) > 1).collect()
}

#[test]
fn no_first_word_is_in_two_rows() {
    assert_eq!(in_two_rows(Row::has), []);
    // Were no register left out, each JMP and NOP would be a MOV s d too.
    let mut expected: Vec<u16> = (0..16).map(|s| 0x4000 + 0x100 * s).collect();
    expected.insert(4, 0x4303);
    assert_eq!(in_two_rows(Row::looks_like), expected);
}

/// An order that request c would allow: groups 4 and 5 first, of these register
/// moves and immediates first, the rare words last.
const BY_USE: [usize; 16] = [7, 10, 8, 9, 6, 5, 11, 12, 13, 14, 15, 3, 1, 2, 4, 0];

/// The places of the table in a random order.
fn shuffled(random: &mut Random) -> [usize; 16] {
    let mut order = std::array::from_fn(|place| place);
    for last in (1..16).rev() {
        order.swap(last, random.below(last as u64 + 1) as usize);
    }
    order
}

/// For each first word, which rows have it.
fn rows_of_words() -> Vec<[bool; 16]> {
    let rows = |first| std::array::from_fn(|place| TABLE[place].has(first));
    (0..=0xFFFF).map(rows).collect()
}

/// The first word, if any, for which looking through the rows in an order does
/// not give what `begins` and `decode` give.
fn other_answer(order: [usize; 16], rows: &[[bool; 16]]) -> Option<u16> {
    (0..=0xFFFF).find(|&first| {
        let found = order.iter().find(|&&place| rows[first as usize][place]);
        let row = found.map(|&place| &TABLE[place]);
        let reads = |second| row.and_then(|row| row.read(first, second));
        let same = |second| decode(first, second) == reads(second);
        begins(first) != row.map(Row::length)
            || ![0x0000, 0xFFFF, 0xFFFE, 0x0001].into_iter().all(same)
    })
}

#[test]
fn no_order_of_looking_changes_an_answer() {
    let rows = rows_of_words();
    let paper = std::array::from_fn(|place| place);
    let reverse = std::array::from_fn(|place| 15 - place);
    let random = &mut Random(1);
    let shuffles = std::iter::repeat_with(|| shuffled(random)).take(100);
    for order in [paper, reverse, BY_USE].into_iter().chain(shuffles) {
        assert_eq!(other_answer(order, &rows), None, "in the order {order:?}");
    }
}

#[test]
fn all_words_decode_and_encode() {
    for first in 0..=0xFFFFu16 {
        for second in [0x0000, 0x1234, 0xFFFF] {
            if let Some((instruction, length)) = decode(first, second) {
                assert_eq!(begins(first), Some(length));
                let expected = if length == 1 {
                    vec![first]
                } else {
                    vec![first, second]
                };
                assert_eq!(encode(&instruction), Some(expected));
            }
        }
    }
}

#[test]
fn all_instructions_encode_or_are_refused() {
    use Instruction::*;
    let mut all = vec![Hlt, Reti, Nop];
    for s in (0..=18).chain([255]) {
        all.extend([
            In(s),
            Out(s),
            Jz(s),
            Jmp(s),
            Not(s),
            Mov(Operand::Constant(0x9ABC), s),
        ]);
        for d in (0..=18).chain([255]) {
            all.extend([
                Mov(Operand::Register(s), d),
                Mov(Operand::Pointed(s), d),
                Store(s, d),
                Compute(Operation::Add, s, d),
                Compute(Operation::Sub, s, d),
                Compute(Operation::Cmp, s, d),
                Compute(Operation::And, s, d),
            ]);
        }
    }
    let mut encoded = 0;
    for instruction in all {
        if let Some(given) = encode(&instruction) {
            encoded += 1;
            assert_eq!(given.len(), words(&instruction) as usize);
            let second = given.get(1).copied().unwrap_or(0x5A5A);
            assert_eq!(
                decode(given[0], second),
                Some((instruction, words(&instruction)))
            );
        }
    }
    assert_eq!(encoded, 3 + 6 * 16 + 239 + 208 + 208 + 4 * 256);
    assert_eq!(encode(&Mov(Operand::Register(3), 3)), None);
    assert_eq!(encode(&Mov(Operand::Register(5), 0)), None);
    assert_eq!(encode(&Jmp(16)), None);
}

#[test]
fn own_address_is_read_from_r0() {
    // MOV 0 5; OUT 0; ADD 5 0; CMP 5 0; SUB 0 0; MOV 0 0(5); JMP &0.
    let mut memory = world(&[(0x4400, 0x4005)]);
    let mut machine = machine_at(0xFFFE, 0x4400);
    one(&mut machine, &mut memory);
    assert_eq!(
        (machine.registers[5], machine.registers[PC]),
        (0x4400, 0x4402)
    );

    let mut memory = world(&[(0x4400, 0x0020)]);
    let mut machine = machine_at(0xFFFE, 0x4400);
    one(&mut machine, &mut memory);
    assert_eq!((machine.clock, machine.alarm), (2, Some(2 + 0x4400)));

    for (word, r5, pc, sr) in [
        (0x5500, 3, 0x4402, C),
        (0x9500, 3, 0x4402, C),
        (0x8000, 3, 0x0000, Z),
        (0x8500, 0x4401, 0xFFFE, N | C),
        (0x4000, 3, 0x4400, 0),
    ] {
        let mut memory = world(&[(0x4400, word)]);
        let mut machine = machine_at(0xFFFE, 0x4400);
        machine.registers[5] = r5;
        assert_eq!(one(&mut machine, &mut memory), Outcome::Ran);
        assert_eq!((machine.registers[PC], machine.registers[SR]), (pc, sr));
    }

    let mut memory = world(&[(0x4400, 0x4085)]);
    let mut machine = machine_at(0xFFFE, 0x4400);
    machine.registers[5] = 0x5001;
    assert_eq!(one(&mut machine, &mut memory), Outcome::Ran);
    assert_eq!(read_word(&memory, 0x5000), 0x4400);
    assert_eq!((machine.clock, machine.registers[PC]), (4, 0x4404));
}

#[test]
fn jz_jumps_if_z() {
    for (sr, pc) in [(Z, 0x4600), (0, 0x4402), (C | N | V, 0x4402)] {
        let mut memory = world(&[(0x4400, 0x0035)]);
        let mut machine = machine_at(0xFFFE, 0x4400);
        machine.registers[5] = 0x4601;
        machine.registers[SR] = sr;
        assert_eq!(one(&mut machine, &mut memory), Outcome::Ran);
        assert_eq!(
            (machine.registers[PC], machine.registers[SR], machine.clock),
            (pc, sr, 2)
        );
    }
}

#[test]
fn not_takes_v_from_the_old_bit_15() {
    assert_eq!(compute_not(0x0000), (0xFFFF, N | C));
    assert_eq!(compute_not(0x8000), (0x7FFF, C | V));
    assert_eq!(compute_not(0xFFFF), (0x0000, Z | V));
    assert_eq!(compute(Operation::And, 0x8000, 0xFFFF), (0x8000, N | C));
    assert_eq!(compute(Operation::Sub, 0x0001, 0x8000), (0x7FFF, C | V));
    assert_eq!(compute(Operation::Sub, 0x8000, 0x0000), (0x8000, N | C | V));
}

// "Clock, requests, device"

#[test]
fn device() {
    // MOV #3 5; OUT 5; IN 6; NOP.
    let mut memory = world(&[
        (0x4400, 0x4035),
        (0x4402, 0x0003),
        (0x4404, 0x0025),
        (0x4406, 0x0016),
        (0x4408, 0x4303),
    ]);
    let mut machine = machine_at(0xFFFE, 0x4400);
    one(&mut machine, &mut memory);
    one(&mut machine, &mut memory);
    assert_eq!(
        (machine.clock, machine.alarm, machine.slot),
        (4, Some(7), None)
    );
    one(&mut machine, &mut memory);
    assert_eq!(
        (machine.clock, machine.registers[6], machine.slot),
        (6, 4, None)
    );
    one(&mut machine, &mut memory);
    assert_eq!(
        (machine.clock, machine.alarm, machine.slot),
        (7, None, Some(7))
    );

    // An alarm due in OUT's own cycles happens first; OUT of 0 clears another.
    let mut memory = world(&[(0x4400, 0x0025)]);
    for (alarm, r5, slot, after) in [
        (Some(102), 9, Some(102), Some(111)),
        (Some(103), 9, None, Some(111)),
        (Some(101), 0, Some(101), None),
        (Some(103), 0, None, None),
        (None, 0xFFFF, None, Some(102 + 65_535)),
    ] {
        let mut machine = machine_at(0xFFFE, 0x4400);
        machine.clock = 100;
        machine.alarm = alarm;
        machine.registers[5] = r5;
        assert_eq!(one(&mut machine, &mut memory), Outcome::Ran);
        assert_eq!(
            (machine.clock, machine.slot, machine.alarm),
            (102, slot, after)
        );
    }

    // IN gives the low 16 bits.
    let mut memory = world(&[(0x4400, 0x0016)]);
    let mut machine = machine_at(0xFFFE, 0x4400);
    machine.clock = 0x1_2345_6789;
    one(&mut machine, &mut memory);
    assert_eq!(machine.registers[6], 0x6789);
}

#[test]
fn earliest_request_fills_the_slot() {
    let mut memory = world(&[(0x4400, 0x4030), (0x4402, 0x4400)]);
    for (stamps, alarm, slot) in [
        (&[9, 10, 11][..], None, Some(11)),
        (&[11, 12][..], None, Some(11)),
        (&[12][..], Some(11), Some(11)),
        (&[11][..], Some(12), Some(11)),
        (&[13][..], Some(13), None),
        (&[13][..], Some(12), Some(12)),
    ] {
        let mut machine = machine_at(0xFFFE, 0x4400);
        machine.clock = 10;
        machine.alarm = alarm;
        assert_eq!(
            machine.step(&mut memory, &LAYOUT, stamps, NO_TRACE),
            Ok(Outcome::Ran)
        );
        assert_eq!(machine.slot, slot);
        assert_eq!(machine.alarm, alarm.filter(|&stamp| stamp > 12));
    }
    // A filled slot stays as it is.
    let mut machine = machine_at(0xFFFE, 0x4400);
    machine.clock = 10;
    machine.slot = Some(3);
    machine.alarm = Some(11);
    assert_eq!(
        machine.step(&mut memory, &LAYOUT, &[12], NO_TRACE),
        Ok(Outcome::Ran)
    );
    assert_eq!((machine.slot, machine.alarm), (Some(3), None));
}

// "One step"

#[test]
fn each_cause() {
    // Cause, previous address, pc, held, words, r5, sp.
    let none = 0x4000;
    type Case<'a> = (u8, u16, u16, bool, &'a [(u16, u16)], u16, u16);
    let cases: &[Case] = &[
        // 1: not the entry; data from inside and from outside.
        (1, 0x4404, 0x8002, false, &[(0x8002, 0x4303)], 0, none),
        (1, 0x8000, 0x8100, false, &[(0x8100, 0x4303)], 0, none),
        (1, 0x4404, 0x8100, false, &[(0x8100, 0x4303)], 0, none),
        (1, 0x8100, 0x8002, false, &[(0x8002, 0x4303)], 0, none),
        // 1 before 2, 2 alone, 2 before 3.
        (1, 0x4404, 0x8002, true, &[(0x8002, 0x4303)], 0, none),
        (2, 0x4404, 0x8000, true, &[(0x8000, 0x4303)], 0, none),
        (2, 0x4404, 0x8000, true, &[(0x8000, 0x0000)], 0, none),
        // 3: in the last word of a section too, where 4 does not come up.
        (3, 0x8000, 0x8006, false, &[(0x8006, 0x0000)], 0, none),
        (3, 0x4404, 0x4406, false, &[(0x4406, 0x0000)], 0, none),
        // 4: leaving code, entering code, entering data; before 5.
        (4, 0x8000, 0x8006, false, &[(0x8006, 0x4035)], 0, none),
        (
            4,
            0x4404,
            0x7FFE,
            false,
            &[(0x7FFE, 0x4035), (0x8000, 0x4303)],
            0,
            none,
        ),
        (4, 0x4404, 0x80FE, false, &[(0x80FE, 0x4035)], 0, none),
        (
            4,
            0x8000,
            0x8006,
            false,
            &[(0x8006, 0xE035), (0x8008, 0x0000)],
            0,
            none,
        ),
        // 5: before 8.
        (
            5,
            0x8000,
            0x8004,
            false,
            &[(0x8004, 0xE035), (0x8006, 0xFFFE)],
            0,
            none,
        ),
        (
            5,
            0x4404,
            0x4406,
            false,
            &[(0x4406, 0x4585), (0x4408, 0x0001)],
            0x5000,
            none,
        ),
        (
            5,
            0x4404,
            0x4406,
            false,
            &[(0x4406, 0x4585), (0x4408, 0x0001)],
            0x8100,
            none,
        ),
        // 6.
        (6, 0x4404, 0x8000, false, &[(0x8000, 0x0001)], 0, none),
        (6, 0x4404, 0x8000, false, &[(0x8000, 0x0015)], 0, none),
        (6, 0x4404, 0x8000, false, &[(0x8000, 0x0025)], 0, none),
        // 7: MOV @5 6 from inside reads data only, from outside outside only.
        (7, 0x4404, 0x8000, false, &[(0x8000, 0x4526)], 0x4400, none),
        (7, 0x4404, 0x8000, false, &[(0x8000, 0x4526)], 0x8000, none),
        (7, 0x4404, 0x4406, false, &[(0x4406, 0x4526)], 0x8000, none),
        (7, 0x4404, 0x4406, false, &[(0x4406, 0x4526)], 0x8103, none),
        // 7: RETI, first word, second word.
        (7, 0x4404, 0x4406, false, &[(0x4406, 0x1300)], 0, 0x8102),
        (7, 0x4404, 0x4406, false, &[(0x4406, 0x1300)], 0, 0x80FE),
        (7, 0x4404, 0x8000, false, &[(0x8000, 0x1300)], 0, 0x8102),
        (7, 0x4404, 0x8000, false, &[(0x8000, 0x1300)], 0, 0x80FE),
        // 8.
        (8, 0x4404, 0x8000, false, &[(0x8000, 0x4685)], 0x4400, none),
        (8, 0x4404, 0x8000, false, &[(0x8000, 0x4685)], 0x8002, none),
        (8, 0x4404, 0x4406, false, &[(0x4406, 0x4685)], 0x8000, none),
        (8, 0x4404, 0x4406, false, &[(0x4406, 0x4685)], 0x8103, none),
    ];
    for &(cause, previous, pc, held, words, r5, sp) in cases {
        let mut memory = world(words);
        write_word(&mut memory, 0xFFFE, 0x4401);
        let kept = memory.clone();
        let mut machine = machine_at(previous, pc);
        machine.clock = 100;
        machine.slot = Some(50);
        machine.alarm = Some(105);
        machine.registers[SR] = GIE;
        machine.registers[5] = r5;
        machine.registers[SP] = sp;
        if held {
            machine.held = visit();
        }
        let outcome = machine.step(&mut memory, &LAYOUT, &[102], NO_TRACE);
        assert_eq!(outcome, Ok(Outcome::Reset(cause)), "{pc:04X} {words:04X?}");
        let mut expected = Machine::start(&memory).unwrap();
        expected.clock = 104;
        expected.alarm = Some(105);
        assert_eq!(expected.registers[PC], 0x4400);
        assert_eq!(machine, expected);
        assert_eq!(memory, kept);
    }
}

#[test]
fn no_cause() {
    // Previous address, pc, words, r5, sp, pc after it: neighbours of the
    // cases above.
    for (previous, pc, words, r5, sp, after) in [
        (0x4404, 0x8000, &[(0x8000, 0x4303)][..], 0, 0, 0x8002),
        (0x8000, 0x8006, &[(0x8006, 0x4303)][..], 0, 0, 0x8008),
        (0x8000, 0x8004, &[(0x8004, 0x4035)][..], 0, 0, 0x8008),
        (0x8006, 0x4400, &[(0x4400, 0x4303)][..], 0, 0, 0x4402),
        (0x4404, 0xFFFE, &[(0xFFFE, 0x4035)][..], 0, 0, 0x0002),
        (0x4404, 0x8000, &[(0x8000, 0x4526)][..], 0x8103, 0, 0x8002),
        (0x4404, 0x4406, &[(0x4406, 0x4526)][..], 0xFFFF, 0, 0x4408),
        (0x4404, 0x8000, &[(0x8000, 0x4685)][..], 0x8103, 0, 0x8004),
        (
            0x4404,
            0x8000,
            &[(0x8000, 0x1300), (0x8102, 0x4600)][..],
            0,
            0x8100,
            0x4600,
        ),
        (
            0x4404,
            0x4406,
            &[(0x4406, 0x1300), (0x0000, 0x4600)][..],
            0,
            0xFFFE,
            0x4600,
        ),
        (
            0x4404,
            0x4406,
            &[(0x4406, 0x4030), (0x4408, 0x8101)][..],
            0,
            0,
            0x8100,
        ),
    ] {
        let mut memory = world(words);
        let mut machine = machine_at(previous, pc);
        machine.registers[5] = r5;
        machine.registers[SP] = sp;
        assert_eq!(
            one(&mut machine, &mut memory),
            Outcome::Ran,
            "{pc:04X} {words:04X?}"
        );
        assert_eq!((machine.registers[PC], machine.previous), (after, pc));
    }
}

#[test]
fn halting() {
    let mut memory = world(&[(0x4400, 0x0001)]);
    let mut machine = machine_at(0xFFFE, 0x4400);
    machine.clock = 9;
    machine.registers[SR] = GIE;
    assert_eq!(
        machine.step(&mut memory, &LAYOUT, &[10], NO_TRACE),
        Ok(Outcome::Halted)
    );
    assert!(machine.halted);
    assert_eq!((machine.clock, machine.slot), (10, Some(10)));
    assert_eq!((machine.registers[PC], machine.previous), (0x4402, 0x4400));
    let before = machine;
    assert_eq!(
        machine.step(&mut memory, &LAYOUT, &[10], NO_TRACE),
        Ok(Outcome::Halted)
    );
    assert_eq!(
        machine.run(&mut memory, &LAYOUT, &[10], NO_TRACE, Stop::Never, 0),
        Ok((End::Halted, 0))
    );
    assert_eq!(
        machine.run(&mut memory, &LAYOUT, &[10], NO_TRACE, Stop::Never, 7),
        Ok((End::Halted, 0))
    );
    assert_eq!(machine, before);
}

#[test]
fn plain_interrupt_and_its_barred_stack() {
    // MOV 6 0(5), 4 cycles, with a request pending and a request in the 6.
    for (sp, barred) in [
        (0x8100, false),
        (0x8102, true),
        (0x8104, true),
        (0x8106, true),
        (0x8108, false),
        (0x8000, false),
        (0x800A, true),
        (0x800C, false),
        (0x0002, false),
    ] {
        let mut memory = world(&[(0x4400, 0x4685), (0xFFFE, 0x4700)]);
        let mut machine = machine_at(0xFFFE, 0x4400);
        machine.clock = 10;
        machine.slot = Some(10);
        machine.registers[5] = 0xFFFF;
        machine.registers[6] = 0x4807;
        machine.registers[SP] = sp;
        machine.registers[SR] = GIE | C;
        machine.held = visit();
        let outcome = machine.step(&mut memory, &LAYOUT, &[12, 17, 20], NO_TRACE);
        if barred {
            // The store stands and the vector is read after it.
            assert_eq!(outcome, Ok(Outcome::Reset(8)), "{sp:04X}");
            assert_eq!((machine.clock, machine.slot), (18, None));
            assert_eq!(machine.registers[PC], 0x4806);
            assert_eq!(machine.held, None);
            assert_eq!(read_word(&memory, sp.wrapping_sub(2)), 0);
            assert_eq!(read_word(&memory, sp.wrapping_sub(4)), 0);
        } else {
            assert_eq!(outcome, Ok(Outcome::Plain), "{sp:04X}");
            assert_eq!((machine.clock, machine.slot), (20, Some(17)));
            assert_eq!(machine.registers[PC], 0x4500);
            assert_eq!(machine.registers[SP], sp.wrapping_sub(4));
            assert_eq!(machine.registers[SR], 0);
            assert_eq!(machine.registers[6], 0x4807);
            assert_eq!(machine.held, visit());
            assert_eq!(read_word(&memory, sp.wrapping_sub(2)), 0x4404);
            assert_eq!(read_word(&memory, sp.wrapping_sub(4)), GIE | C);
        }
        assert_eq!(machine.previous, 0xFFFE);
    }
}

#[test]
fn padded_interrupt_holds_the_visit() {
    // At most 6 of the age are counted; requests in the wait merge, requests in
    // the 6 cycles after it stay pending.
    for (slot, age, waited) in [(Some(1), 6, 107), (Some(96), 5, 108), (None, 0, 113)] {
        for late in [0, 1] {
            let empties = waited - 6;
            let mut stamps: Vec<u64> = (101..=empties).collect();
            if late == 1 {
                stamps.push(empties + 1);
                stamps.push(waited);
            }
            let mut memory = world(&[(0x8002, 0x5607)]);
            let mut machine = machine_at(0x8000, 0x8002);
            machine.clock = 100;
            machine.slot = slot;
            machine.registers[6] = 0x0006;
            machine.registers[7] = 0x0007;
            machine.registers[SR] = GIE;
            let outcome = machine.step(&mut memory, &LAYOUT, &stamps, NO_TRACE);
            assert_eq!(outcome, Ok(Outcome::Padded));
            assert_eq!(machine.clock, waited);
            assert_eq!(
                machine.slot,
                if late == 1 { Some(empties + 1) } else { None }
            );
            let held = machine.held.unwrap();
            assert_eq!((held.previous, held.age), (0x8002, age));
            assert_eq!(held.registers[PC], 0x8004);
            assert_eq!(held.registers[7], 0x000D);
            assert_eq!(held.registers[SR], GIE | C);
            let mut cleared = [0; 16];
            cleared[PC] = 0x4500;
            assert_eq!(machine.registers, cleared);
            assert_eq!(machine.previous, 0xFFFE);
        }
    }
}

#[test]
fn chained_merged_and_return_padding() {
    // 12 falls in the padded wait and merges: as if it were not there.
    assert_eq!(bench(&paper_sheet(&[6, 12])), bench(&paper_sheet(&[6])));
    let chained = output(
        "step kind clock pc sr
         1 R 2 4404 0008
         2 R 4 8000 0008
         3 R 5 8002 0008
         4 P 18 4500 0000
         5 C 29 4500 0000
         6 B 35 8006 0008
         7 R 37 4600 0008
         8 H 38 4602 0008
         H 8 38",
    );
    // 13 comes after the slot emptied; 23 in RETI's last cycle.
    assert_eq!(bench(&paper_sheet(&[6, 13])), chained);
    assert_eq!(bench(&paper_sheet(&[6, 13, 14, 23])), chained);
    assert_eq!(bench(&paper_sheet(&[6, 23])), chained);
    // 24 falls in the return padding: padded again, 12 cycles after it.
    let padded = output(
        "step kind clock pc sr
         1 R 2 4404 0008
         2 R 4 8000 0008
         3 R 5 8002 0008
         4 P 18 4500 0000
         5 P 36 4500 0000
         6 B 41 8006 0008
         7 R 43 4600 0008
         8 H 44 4602 0008
         H 8 44",
    );
    assert_eq!(bench(&paper_sheet(&[6, 24])), padded);
    // 25 falls in the next instruction, a JMP of 2 cycles, age 1.
    let next = output(
        "step kind clock pc sr
         1 R 2 4404 0008
         2 R 4 8000 0008
         3 R 5 8002 0008
         4 P 18 4500 0000
         5 B 24 8006 0008
         6 P 37 4500 0000
         7 B 43 4600 0008
         8 H 44 4602 0008
         H 8 44",
    );
    assert_eq!(bench(&paper_sheet(&[6, 25])), next);
}

#[test]
fn reti_with_a_visit_held_reads_no_stack() {
    // sp in the data section, GIE clear or set: back, or chained.
    for sr in [0, GIE] {
        let mut memory = world(&[(0x4700, 0x1300)]);
        let mut machine = machine_at(0x4404, 0x4700);
        machine.clock = 100;
        machine.registers[SP] = 0x8100;
        machine.registers[SR] = sr;
        machine.held = visit();
        let mut pending = machine;
        pending.slot = Some(90);
        assert_eq!(one(&mut machine, &mut memory), Outcome::Back);
        assert_eq!((machine.clock, machine.previous), (106, 0x8000));
        assert_eq!(machine.registers, visit().unwrap().registers);
        assert_eq!(machine.held, None);
        // 106 is in the 6 cycles of the chained service.
        let outcome = pending.step(&mut memory, &LAYOUT, &[104, 106], NO_TRACE);
        assert_eq!(outcome, Ok(Outcome::Chained));
        assert_eq!((pending.clock, pending.slot), (111, Some(106)));
        assert_eq!((pending.registers[PC], pending.registers[SP]), (0x4500, 0));
        assert_eq!((pending.held, pending.previous), (visit(), 0xFFFE));
    }
}

#[test]
fn reti_with_no_visit_makes_the_plain_check() {
    let mut memory = world(&[(0x4400, 0x1300), (0x5000, 0x0008), (0x5002, 0x4601)]);
    let mut machine = machine_at(0xFFFE, 0x4400);
    machine.clock = 10;
    machine.slot = Some(3);
    machine.registers[SP] = 0x5000;
    assert_eq!(one(&mut machine, &mut memory), Outcome::Plain);
    assert_eq!((machine.clock, machine.registers[SP]), (21, 0x5000));
    assert_eq!(read_word(&memory, 0x5002), 0x4600);
    assert_eq!(read_word(&memory, 0x5000), 0x0008);
}

// "Callers"

#[test]
fn refusals_in_order() {
    let mut memory = paper_memory();
    let good = Machine::start(&memory).unwrap();
    assert_eq!(Machine::start(&memory[..65_535]), Err(1));
    assert_eq!(Machine::start(&vec![0; 65_537]), Err(1));

    let bad_layout = Layout {
        service: 0x8000,
        ..LAYOUT
    };
    let mut bad_frame = good;
    bad_frame.registers[ZERO] = 1;
    bad_frame.clock = CLOCK_LIMIT + 1;
    let mut bad_clock = good;
    bad_clock.clock = CLOCK_LIMIT + 1;
    let mut short = vec![0; 65_535];

    let mut m = bad_frame;
    let mut both_refuse = |memory: &mut [u8], layout: &Layout, stamp: u64, number: u8| {
        let (stamps, late) = ([stamp], 1_000_001);
        assert_eq!(
            m.run(memory, layout, &stamps, NO_TRACE, Stop::Never, late),
            Err(number)
        );
        assert_eq!(m.step(memory, layout, &stamps, NO_TRACE), Err(number));
    };
    both_refuse(&mut short, &bad_layout, 0, 1);
    both_refuse(&mut memory, &bad_layout, 0, 2);
    both_refuse(&mut memory, &LAYOUT, 0, 3);
    both_refuse(&mut memory, &LAYOUT, 1, 4);
    assert_eq!(m, bad_frame);
    let mut m = bad_clock;
    assert_eq!(
        m.run(&mut memory, &LAYOUT, &[1], NO_TRACE, Stop::Never, 1_000_001),
        Err(5)
    );
    assert_eq!(
        m.run(&mut memory, &LAYOUT, &[1], NO_TRACE, Stop::Never, 1_000_000),
        Err(6)
    );
    assert_eq!(m.step(&mut memory, &LAYOUT, &[1], NO_TRACE), Err(6));
    m.halted = true;
    assert_eq!(m.step(&mut memory, &LAYOUT, &[1], NO_TRACE), Err(6));
    let mut m = good;
    assert_eq!(
        m.run(&mut memory, &LAYOUT, &[1], NO_TRACE, Stop::Never, 1_000_001),
        Err(5)
    );
    assert_eq!(m, good);
    assert_eq!(memory, paper_memory());
    assert_eq!(
        m.run(&mut memory, &LAYOUT, &[6], NO_TRACE, Stop::Never, 1_000_000),
        Ok((End::Halted, 7))
    );
    let mut m = good;
    assert_eq!(
        m.run(&mut memory, &LAYOUT, &[6], NO_TRACE, Stop::Never, 0),
        Ok((End::Spent, 0))
    );
    assert_eq!(m, good);
    assert_eq!(
        m.run(&mut memory, &LAYOUT, &[6], NO_TRACE, Stop::Never, 3),
        Ok((End::Spent, 3))
    );
}

#[test]
fn timetable_rules() {
    assert!(timetable_valid(&[]));
    assert!(timetable_valid(&[1, 2, LAST_STAMP]));
    assert!(!timetable_valid(&[0]));
    assert!(!timetable_valid(&[LAST_STAMP + 1]));
    assert!(!timetable_valid(&[2, 2]));
    assert!(!timetable_valid(&[1, 3, 2]));
}

#[test]
fn frame_rules() {
    let taken = |change: &dyn Fn(&mut Machine)| {
        let mut machine = machine_at(0xFFFE, 0x4400);
        machine.clock = 100;
        machine.held = visit();
        change(&mut machine);
        machine.frame_valid(&LAYOUT)
    };
    assert!(taken(&|_| {}));
    assert!(taken(&|m| m.slot = Some(1)));
    assert!(taken(&|m| m.slot = Some(100)));
    assert!(taken(&|m| m.alarm = Some(101)));
    assert!(taken(&|m| m.alarm = Some(u64::MAX)));
    assert!(taken(&|m| m.previous = 0x8100));
    assert!(taken(&|m| m.registers[SR] = 0xFFFF));
    assert!(taken(&|m| m.halted = true));
    assert!(!taken(&|m| m.registers[PC] = 0x4401));
    assert!(!taken(&|m| m.registers[SP] = 0x4401));
    assert!(!taken(&|m| m.previous = 0x4401));
    assert!(!taken(&|m| m.registers[ZERO] = 2));
    assert!(!taken(&|m| m.slot = Some(0)));
    assert!(!taken(&|m| m.slot = Some(101)));
    assert!(!taken(&|m| m.alarm = Some(100)));
    assert!(!taken(&|m| m.alarm = Some(0)));
    let held = |change: &dyn Fn(&mut SavedContext)| {
        taken(&|m| {
            let mut context = visit().unwrap();
            change(&mut context);
            m.held = Some(context);
        })
    };
    assert!(held(&|h| h.age = 6));
    assert!(held(&|h| h.registers[PC] = 0x4400));
    assert!(held(&|h| h.registers[SR] = 0xFFFF));
    assert!(held(&|h| h.previous = 0x8006));
    assert!(!held(&|h| h.age = 7));
    assert!(!held(&|h| h.registers[PC] = 0x8003));
    assert!(!held(&|h| h.registers[SP] = 1));
    assert!(!held(&|h| h.registers[ZERO] = 2));
    assert!(!held(&|h| h.registers[SR] = !GIE));
    assert!(!held(&|h| h.previous = 0x8008));
    assert!(!held(&|h| h.previous = 0x8001));
    assert!(!held(&|h| h.previous = 0x8100));
}

// Document 02, request a: "Ride trace as the device"

#[test]
fn in_gives_the_last_records_word() {
    // IN 6 takes 2 cycles; the clock at its start counts. "0 before the
    // first"; a record at that clock counts, one that is due in IN's own
    // cycles (10 from 8 and 9, 20 from 18 and 19) does not.
    let mut memory = world(&[(0x4400, 0x0016)]);
    for (clock, word) in [
        (0, 0),
        (7, 0),
        (8, 0),
        (9, 0),
        (10, 0x1111),
        (11, 0x1111),
        (18, 0x1111),
        (19, 0x1111),
        (20, 0x2222),
        (29, 0x2222),
        (30, 0x3333),
        (31, 0x3333),
        (65_536 + 5, 0x3333),
        (CLOCK_LIMIT, 0x3333),
    ] {
        let mut machine = machine_at(0xFFFE, 0x4400);
        machine.clock = clock;
        machine.registers[6] = 0xAAAA;
        let outcome = machine.step(&mut memory, &LAYOUT, &[], RIDE);
        assert_eq!(outcome, Ok(Outcome::Ran));
        assert_eq!(machine.registers[6], word, "at {clock}");
        assert_eq!(machine.clock, clock + 2);
    }
}

#[test]
fn an_empty_trace_gives_the_clock_and_records_ahead_give_0() {
    let mut memory = world(&[(0x4400, 0x0016)]);
    let ahead = Trace {
        stamps: &[LAST_STAMP - 1, LAST_STAMP],
        words: &[0x1111, 0x2222],
    };
    for (trace, clock, word) in [
        (NO_TRACE, 0x1_2345_6789, 0x6789),
        (NO_TRACE, 0, 0),
        (ahead, 0x1_2345_6789, 0),
        (ahead, LAST_STAMP - 2, 0),
        (ahead, LAST_STAMP - 1, 0x1111),
        (ahead, LAST_STAMP, 0x2222),
    ] {
        // A timetable has no words: its stamps do not count for IN.
        for stamps in [&[][..], &[1, 2, 3][..]] {
            let mut machine = machine_at(0xFFFE, 0x4400);
            machine.clock = clock;
            let outcome = machine.step(&mut memory, &LAYOUT, stamps, trace);
            assert_eq!(outcome, Ok(Outcome::Ran));
            assert_eq!(machine.registers[6], word, "at {clock}");
        }
    }
    // A word 0 in a record is no other than a word.
    let zero = Trace {
        stamps: &[1, 2],
        words: &[5, 0],
    };
    for (clock, word) in [(1, 5), (2, 0), (3, 0)] {
        let mut machine = machine_at(0xFFFE, 0x4400);
        machine.clock = clock;
        machine.step(&mut memory, &LAYOUT, &[], zero).unwrap();
        assert_eq!(machine.registers[6], word);
    }
}

#[test]
fn in_writes_its_word_as_any_instruction_does() {
    // To pc and sp without bit 0, to r3 not at all, to sr as it is.
    let record = Trace {
        stamps: &[1],
        words: &[0x4601],
    };
    for (word, register, value) in [
        (0x0010, PC, 0x4600),
        (0x0011, SP, 0x4600),
        (0x0012, SR, 0x4601),
        (0x0013, ZERO, 0),
        (0x001F, 15, 0x4601),
    ] {
        let mut memory = world(&[(0x4400, word)]);
        let mut machine = machine_at(0xFFFE, 0x4400);
        machine.clock = 1;
        let outcome = machine.step(&mut memory, &LAYOUT, &[], record);
        assert_eq!(outcome, Ok(Outcome::Ran));
        assert_eq!(machine.registers[register], value);
    }
    // Inside it is barred, whatever the trace has.
    let mut memory = world(&[(0x8000, 0x0016)]);
    let mut machine = machine_at(0xFFFE, 0x8000);
    machine.clock = 10;
    let outcome = machine.step(&mut memory, &LAYOUT, &[], RIDE);
    assert_eq!(outcome, Ok(Outcome::Reset(6)));
    assert_eq!(machine.registers[6], 0);
}

#[test]
fn a_run_reads_the_record_of_each_step() {
    // IN 4, IN 5, IN 6, IN 7, HLT at 0, 2, 4, 6, 8: the records are at 2, 5, 6.
    let ride = Trace {
        stamps: &[2, 5, 6],
        words: &[0x0A0A, 0x0B0B, 0x0C0C],
    };
    let words = [0x0014, 0x0015, 0x0016, 0x0017, 0x0001];
    let mut memory = world(&[(0xFFFE, 0x4400)]);
    for (place, word) in words.into_iter().enumerate() {
        write_word(&mut memory, 0x4400 + 2 * place as u16, word);
    }
    let mut machine = Machine::start(&memory).unwrap();
    let ran = machine.run(&mut memory, &LAYOUT, &[], ride, Stop::Never, 9);
    assert_eq!(ran, Ok((End::Halted, 5)));
    assert_eq!(machine.registers[4..8], [0, 0x0A0A, 0x0A0A, 0x0C0C]);
    assert_eq!((machine.clock, machine.slot), (9, Some(2)));
}

#[test]
fn each_record_is_a_request() {
    // The clock passes from 10 to 12: timetable, trace, alarm, slot after it.
    let mut memory = world(&[(0x4400, 0x4030), (0x4402, 0x4400)]);
    for (stamps, trace, alarm, slot) in [
        (&[][..], &[9, 10, 11][..], None, Some(11)),
        (&[][..], &[11, 12][..], None, Some(11)),
        (&[][..], &[12][..], None, Some(12)),
        (&[][..], &[13][..], None, None),
        (&[][..], &[10][..], None, None),
        (&[11][..], &[12][..], None, Some(11)),
        (&[12][..], &[11][..], None, Some(11)),
        (&[13][..], &[12][..], None, Some(12)),
        (&[12][..], &[13][..], None, Some(12)),
        (&[][..], &[12][..], Some(11), Some(11)),
        (&[][..], &[11][..], Some(12), Some(11)),
        (&[12][..], &[12][..], Some(11), Some(11)),
    ] {
        let mut machine = machine_at(0xFFFE, 0x4400);
        machine.clock = 10;
        machine.alarm = alarm;
        let mut filled = machine;
        filled.slot = Some(3);
        let outcome = machine.step(&mut memory, &LAYOUT, stamps, trace_at(trace));
        assert_eq!(outcome, Ok(Outcome::Ran));
        assert_eq!(machine.slot, slot);
        assert_eq!(machine.alarm, None);
        // A record merges into a filled slot.
        let outcome = filled.step(&mut memory, &LAYOUT, stamps, trace_at(trace));
        assert_eq!(outcome, Ok(Outcome::Ran));
        assert_eq!((filled.slot, filled.alarm), (Some(3), None));
    }
    // A plain service, 6 cycles after MOV #w 0 with GIE set.
    let mut machine = machine_at(0xFFFE, 0x4400);
    machine.clock = 10;
    machine.registers[SR] = GIE;
    let outcome = machine.step(&mut memory, &LAYOUT, &[], trace_at(&[12]));
    assert_eq!(outcome, Ok(Outcome::Plain));
    assert_eq!((machine.clock, machine.slot), (18, None));
    // A record in a reset's 4 cycles is lost with the slot.
    let mut machine = machine_at(0xFFFE, 0x4700);
    let outcome = machine.step(&mut memory, &LAYOUT, &[], trace_at(&[4]));
    assert_eq!(outcome, Ok(Outcome::Reset(3)));
    assert_eq!((machine.clock, machine.slot), (4, None));
}

#[test]
fn records_break_into_the_module_as_stamps_do() {
    // Document 01's sheet, with its stamps or some of them in the trace.
    let same = |lines: &str, stamps: &[u64]| {
        let expected = bench(&paper_sheet(stamps));
        assert_eq!(bench(&paper_sheet_with(lines)), expected, "{lines}");
    };
    same("T 6 1234 / ", &[6]);
    same("T 4 1234 / ", &[4]);
    same("T 5 1234 / ", &[5]);
    same("T 7 1234 / ", &[7]);
    // 12 merges in the padded wait, 13 and 23 chain, 24 falls in the return
    // padding, 25 in the instruction after it.
    for second in [7, 12, 13, 23, 24, 25] {
        same(&format!("T 6 1234 / T {second} 5678 / "), &[6, second]);
        same(&format!("A 6 / T {second} 5678 / "), &[6, second]);
        same(&format!("T 6 1234 / A {second} / "), &[6, second]);
        same(&format!("A {second} / T 6 1234 / "), &[6, second]);
    }
    // 12 cycles after its stamp.
    let text = bench(&paper_sheet_with("T 6 1234 / "));
    assert_eq!(line(&text, 4), "4 P 18 4500 0000");
    let text = bench(&paper_sheet_with("A 6 / T 24 1234 / "));
    assert_eq!(line(&text, 5), "5 P 36 4500 0000");
}

#[test]
fn a_record_at_a_timetable_stamp_counts_once() {
    // "One that equals a timetable stamp counts once": 6 is served at 18 and
    // nothing chains; with 13 it chains once.
    let once = bench(&paper_sheet(&[6]));
    assert_eq!(bench(&paper_sheet_with("A 6 / T 6 1234 / ")), once);
    assert_eq!(bench(&paper_sheet_with("T 6 1234 / A 6 / ")), once);
    let chained = bench(&paper_sheet(&[6, 13]));
    for lines in [
        "A 6 / A 13 / T 6 0001 / T 13 0002 / ",
        "A 6 / T 6 0001 / T 13 0002 / A 13 / ",
        "T 6 0001 / A 6 / A 13 / ",
    ] {
        assert_eq!(bench(&paper_sheet_with(lines)), chained, "{lines}");
    }
}

#[test]
fn trace_rules() {
    let of = |stamps: &[u64], words: usize| {
        trace_valid(Trace {
            stamps,
            words: &[0x1234; 4100][..words],
        })
    };
    assert!(of(&[], 0));
    assert!(of(&[1], 1));
    assert!(of(&[1, 2, LAST_STAMP], 3));
    // Not equally many.
    assert!(!of(&[], 1));
    assert!(!of(&[1], 0));
    assert!(!of(&[1, 2], 1));
    assert!(!of(&[1, 2], 3));
    // Out of range.
    assert!(!of(&[0], 1));
    assert!(!of(&[0, 1], 2));
    assert!(of(&[LAST_STAMP], 1));
    assert!(!of(&[LAST_STAMP + 1], 1));
    assert!(!of(&[5, LAST_STAMP + 1], 2));
    assert!(!of(&[u64::MAX], 1));
    // Not rising.
    assert!(!of(&[2, 2], 2));
    assert!(!of(&[1, 3, 2], 3));
    // Too many.
    let all: Vec<u64> = (1..=4097).collect();
    assert!(of(&all[..4095], 4095));
    assert!(of(&all[..4096], 4096));
    assert!(!of(&all[..4096], 4095));
    assert!(!of(&all[..4096], 4097));
    assert!(!of(&all, 4096));
    assert!(!of(&all, 4097));
}

#[test]
fn refusal_10_stands_right_after_3() {
    let mut memory = paper_memory();
    let good = Machine::start(&memory).unwrap();
    let bad = Trace {
        stamps: &[1],
        words: &[],
    };
    let bad_layout = Layout {
        service: 0x8000,
        ..LAYOUT
    };
    let mut bad_frame = good;
    bad_frame.registers[ZERO] = 1;
    bad_frame.clock = CLOCK_LIMIT + 1;
    let mut short = vec![0; 65_535];
    for halted in [false, true] {
        let mut m = bad_frame;
        m.halted = halted;
        let before = m;
        assert_eq!(m.step(&mut short, &bad_layout, &[0], bad), Err(1));
        assert_eq!(m.step(&mut memory, &bad_layout, &[0], bad), Err(2));
        assert_eq!(m.step(&mut memory, &LAYOUT, &[0], bad), Err(3));
        assert_eq!(m.step(&mut memory, &LAYOUT, &[1], bad), Err(10));
        assert_eq!(m.step(&mut memory, &LAYOUT, &[1], RIDE), Err(4));
        let most = 1_000_001;
        assert_eq!(
            m.run(&mut short, &bad_layout, &[0], bad, Stop::Never, most),
            Err(1)
        );
        assert_eq!(
            m.run(&mut memory, &bad_layout, &[0], bad, Stop::Never, most),
            Err(2)
        );
        assert_eq!(
            m.run(&mut memory, &LAYOUT, &[0], bad, Stop::Never, most),
            Err(3)
        );
        assert_eq!(
            m.run(&mut memory, &LAYOUT, &[1], bad, Stop::Never, most),
            Err(10)
        );
        assert_eq!(
            m.run(&mut memory, &LAYOUT, &[1], RIDE, Stop::Never, most),
            Err(4)
        );
        assert_eq!(m, before);
        // Before 5 and 6 too, and a halted machine is no way out.
        let mut m = good;
        m.halted = halted;
        m.clock = CLOCK_LIMIT + 1;
        assert_eq!(m.step(&mut memory, &LAYOUT, &[], bad), Err(10));
        assert_eq!(
            m.run(&mut memory, &LAYOUT, &[], bad, Stop::Never, most),
            Err(10)
        );
        assert_eq!(
            m.run(&mut memory, &LAYOUT, &[], RIDE, Stop::Never, most),
            Err(5)
        );
        assert_eq!(m.step(&mut memory, &LAYOUT, &[], RIDE), Err(6));
        m.clock = 0;
        assert_eq!(m.step(&mut memory, &LAYOUT, &[], bad), Err(10));
        assert_eq!(
            m.run(&mut memory, &LAYOUT, &[], bad, Stop::Never, 0),
            Err(10)
        );
    }
    assert_eq!(memory, paper_memory());
    // "Start takes the memory only": nothing else can be refused there.
    assert!(Machine::start(&memory).is_ok());
}

#[test]
fn t_lines() {
    let good = "L 8000 8008 8100 8104 4500";
    let says = |bytes: &[u8]| line(&bench(bytes), 0);
    let of = |text: &str| says(&sheet(text));
    let second = |field: &str| of(&format!("{good} / {field} / G 0"));
    let taken = "step kind clock pc sr";
    // 7: fields that can't be read.
    for field in [
        "T",
        "T 5",
        "T 5 ",
        "T  1234",
        "T 5 1234 5",
        "T 5 1234 ",
        "t 5 1234",
        "TT 5 1234",
        "T 05 1234",
        "T 00 1234",
        "T +5 1234",
        "T -5 1234",
        "T 5A 1234",
        "T 10000000000000000000 1234",
        "T 5 123",
        "T 5 01234",
        "T 5 12a4",
        "T 5 12G4",
        "T 5 0x12",
        "T 5 +123",
        "A 5 1234",
        "M 4400 1234 5",
    ] {
        let text = format!("{good}\n{field}\nG 0\n").replace(' ', "\t");
        assert_eq!(says(text.as_bytes()), "E 7 2", "{field}");
    }
    // 7 before 10 on one line.
    assert_eq!(second("T 0 12"), "E 7 2");
    assert_eq!(second("T 0 abcd"), "E 7 2");
    assert_eq!(second("T 9999999999999999999 12345"), "E 7 2");
    // 10 at its own line: out of range, not above the last T stamp.
    assert_eq!(second("T 0 1234"), "E 10 2");
    assert_eq!(second("T 1 1234"), taken);
    assert_eq!(second("T 4611686018427387904 FFFF"), taken);
    assert_eq!(second("T 4611686018427387905 FFFF"), "E 10 2");
    assert_eq!(second("T 9999999999999999999 0000"), "E 10 2");
    assert_eq!(second("T 5 0000 / T 5 0000"), "E 10 3");
    assert_eq!(second("T 5 0000 / T 4 0000"), "E 10 3");
    assert_eq!(second("T 5 0000 / T 6 0000"), taken);
    assert_eq!(second("T 5 1234 / M 4400 0001 / A 7 / T 5 1234"), "E 10 5");
    assert_eq!(second("T 5 1234 / M 4400 0001 / A 7 / T 6 1234"), taken);
    // A and T lists rise each by itself.
    assert_eq!(second("A 9 / T 5 0000 / A 10 / T 6 0000"), taken);
    assert_eq!(second("T 9 0000 / A 5 / T 10 0000 / A 6"), taken);
    assert_eq!(second("T 5 0000 / A 5 / T 6 0000 / A 6"), taken);
    assert_eq!(second("A 5 / T 9 0000 / A 5"), "E 3 4");
    assert_eq!(second("T 5 0000 / A 9 / T 5 0000"), "E 10 4");
    // The earlier line first.
    assert_eq!(second("T 0 0000 / A 0"), "E 10 2");
    assert_eq!(second("A 0 / T 0 0000"), "E 3 2");
    assert_eq!(second("T 0 0000 / X"), "E 10 2");
    assert_eq!(second("X / T 0 0000"), "E 7 2");
    assert_eq!(of(&format!("{good} / T 0 0000 / G 1000001")), "E 10 2");
    assert_eq!(of(&format!("{good} / G 1000001 / T 0 0000")), "E 5 2");
    // Among M and A lines only: not first, not after G; it is no last line.
    assert_eq!(of(&format!("T 5 1234 / {good} / G 0")), "E 7 1");
    assert_eq!(of(&format!("{good} / G 0 / T 5 1234")), "E 7 3");
    assert_eq!(of(&format!("{good} / T 5 1234")), "E 7 3");
    assert_eq!(
        says(b"L\t8000\t8008\t8100\t8104\t4500\nT\t5\t1234"),
        "E 7 2"
    );
    assert_eq!(of("L 8001 8008 8100 8104 4500 / T 0 0000"), "E 2 1");
}

#[test]
fn a_sheets_trace_is_what_its_t_lines_say() {
    let text = "L 8000 8008 8100 8104 4500 / T 3 00FF / A 2 / M FFFE 4400 / T 5 FF00 / G 7";
    let read = read_sheet(&sheet(text)).ok().unwrap();
    assert_eq!(read.stamps, [2]);
    assert_eq!(read.trace_stamps, [3, 5]);
    assert_eq!(read.trace_words, [0x00FF, 0xFF00]);
    assert_eq!((read.budget, read_word(&read.memory, VECTOR)), (7, 0x4400));
    // As many as a sheet can hold: 27 bytes of L, 4 of G, and lines of 9, 10,
    // 11 and 12 bytes by the digits of their stamps: 9 * 9 + 90 * 10 + 900 *
    // 11 = 10,881, and 1,821 of 12 in what is left, with 4 bytes to spare.
    let mut text = String::from("L\t8000\t8008\t8100\t8104\t4500\n");
    for stamp in 1..=2820 {
        text += &format!("T\t{stamp}\t{stamp:04X}\n");
    }
    text += "G\t0\n";
    assert_eq!(text.len(), 32_764);
    let read = read_sheet(text.as_bytes()).ok().unwrap();
    assert_eq!(read.trace_stamps, (1..=2820).collect::<Vec<u64>>());
    assert_eq!(read.trace_words, (1..=2820).collect::<Vec<u16>>());
    // The image reads it: IN 0 jumps where the last record says.
    let text = "L 8000 8008 8100 8104 4500 / M FFFE 4400 / M 4400 4303 / M 4402 0010 \
                / M 4600 0001 / T 1 4600 / T 2 4700 / G 9";
    let expected = output(
        "step kind clock pc sr
         1 R 1 4402 0000
         2 R 3 4600 0000
         3 H 4 4602 0000
         H 3 4",
    );
    assert_eq!(bench(&sheet(text)), expected);
}

// Document 02, request b: "Run to an address"

/// Document 01's sheet at its start, and its memory.
fn paper_start() -> (Machine, Vec<u8>) {
    let memory = paper_memory();
    (Machine::start(&memory).unwrap(), memory)
}

/// A run on document 01's layout without a trace.
fn to(
    machine: &mut Machine,
    memory: &mut [u8],
    stamps: &[u64],
    stop: Stop,
    budget: u64,
) -> Result<(End, u64), u8> {
    machine.run(memory, &LAYOUT, stamps, NO_TRACE, stop, budget)
}

#[test]
fn the_papers_sheet_to_each_address() {
    // The sheet's own lines: clock and pc after each step.
    for (address, end, steps, clock, pc) in [
        (0x4400, End::Address, 0, 0, 0x4400),
        (0x4404, End::Address, 1, 2, 0x4404),
        (0x8000, End::Address, 2, 4, 0x8000),
        (0x8002, End::Address, 3, 5, 0x8002),
        (0x4500, End::Address, 4, 18, 0x4500),
        (0x8006, End::Address, 5, 24, 0x8006),
        (0x4600, End::Address, 6, 26, 0x4600),
        // It halts there: "halted" comes first.
        (0x4602, End::Halted, 7, 27, 0x4602),
        // Second words are no step's pc, and these are no one's.
        (0x4402, End::Halted, 7, 27, 0x4602),
        (0x4406, End::Halted, 7, 27, 0x4602),
        (0x8004, End::Halted, 7, 27, 0x4602),
        (0x4502, End::Halted, 7, 27, 0x4602),
        (0x0000, End::Halted, 7, 27, 0x4602),
        (0x8100, End::Halted, 7, 27, 0x4602),
        (0xFFFE, End::Halted, 7, 27, 0x4602),
    ] {
        let (mut m, mut memory) = paper_start();
        let ran = to(&mut m, &mut memory, &[6], Stop::At(address), 20);
        assert_eq!(ran, Ok((end, steps)), "{address:04X}");
        assert_eq!((m.clock, m.registers[PC]), (clock, pc), "{address:04X}");
    }
}

#[test]
fn without_a_stop_address_the_run_is_the_old_one() {
    let (begun, _) = paper_start();
    for (budget, end, steps, clock, pc) in [
        (0, End::Spent, 0, 0, 0x4400),
        (1, End::Spent, 1, 2, 0x4404),
        (2, End::Spent, 2, 4, 0x8000),
        (3, End::Spent, 3, 5, 0x8002),
        (4, End::Spent, 4, 18, 0x4500),
        (5, End::Spent, 5, 24, 0x8006),
        (6, End::Spent, 6, 26, 0x4600),
        (7, End::Halted, 7, 27, 0x4602),
        (8, End::Halted, 7, 27, 0x4602),
        (1_000_000, End::Halted, 7, 27, 0x4602),
    ] {
        let (mut m, mut memory) = (begun, paper_memory());
        let ran = to(&mut m, &mut memory, &[6], Stop::Never, budget);
        assert_eq!(ran, Ok((end, steps)), "{budget}");
        assert_eq!((m.clock, m.registers[PC]), (clock, pc), "{budget}");
    }
}

#[test]
fn address_comes_before_spent() {
    // 8000 is met after two steps: with a budget of two both ends hold.
    for (budget, end, steps) in [
        (0, End::Spent, 0),
        (1, End::Spent, 1),
        (2, End::Address, 2),
        (3, End::Address, 2),
        (1_000_000, End::Address, 2),
    ] {
        let (mut m, mut memory) = paper_start();
        let ran = to(&mut m, &mut memory, &[6], Stop::At(0x8000), budget);
        assert_eq!(ran, Ok((end, steps)), "{budget}");
    }
    // "Budget 0 at the address is "address" with 0 steps", and so is any other.
    for budget in [0, 1, 20, 1_000_000] {
        let (mut m, mut memory) = paper_start();
        let before = m;
        let ran = to(&mut m, &mut memory, &[6], Stop::At(0x4400), budget);
        assert_eq!(ran, Ok((End::Address, 0)), "{budget}");
        assert_eq!((m, memory), (before, paper_memory()));
    }
}

#[test]
fn halted_comes_before_address() {
    // "Halted at the address is halted": at pc, with every budget.
    for budget in [0, 1, 1_000_000] {
        let (mut m, mut memory) = paper_start();
        m.halted = true;
        let before = m;
        for address in [0x4400, 0x4404, 0x8000] {
            let ran = to(&mut m, &mut memory, &[6], Stop::At(address), budget);
            assert_eq!(ran, Ok((End::Halted, 0)));
        }
        assert_eq!((m, memory), (before, paper_memory()));
    }
    // HLT at 4600 leaves pc at 4602: also when the budget is spent with it.
    let mut memory = world(&[(0x4600, 0x0001)]);
    for budget in [1, 2] {
        let mut m = machine_at(0xFFFE, 0x4600);
        let ran = to(&mut m, &mut memory, &[], Stop::At(0x4602), budget);
        assert_eq!(ran, Ok((End::Halted, 1)));
        assert_eq!((m.registers[PC], m.clock), (0x4602, 1));
    }
    // At the HLT itself it stops before it.
    let mut m = machine_at(0xFFFE, 0x4600);
    let ran = to(&mut m, &mut memory, &[], Stop::At(0x4600), 2);
    assert_eq!(ran, Ok((End::Address, 0)));
    assert!(!m.halted);
}

#[test]
fn clock_comes_before_address() {
    // MOV #8 2 at 4400 takes 2 cycles and goes to 4404.
    for (clock, end) in [
        (CLOCK_LIMIT - 2, End::Address),
        (CLOCK_LIMIT - 1, End::Clock),
        (CLOCK_LIMIT, End::Clock),
    ] {
        for budget in [1, 2] {
            let (mut m, mut memory) = paper_start();
            m.clock = clock;
            let ran = to(&mut m, &mut memory, &[], Stop::At(0x4404), budget);
            assert_eq!(ran, Ok((end, 1)), "{clock} {budget}");
            assert_eq!((m.clock, m.registers[PC]), (clock + 2, 0x4404));
        }
    }
    // At 2^62 a run still begins, and stops before its first step.
    let (mut m, mut memory) = paper_start();
    m.clock = CLOCK_LIMIT;
    let ran = to(&mut m, &mut memory, &[], Stop::At(0x4400), 9);
    assert_eq!(ran, Ok((End::Address, 0)));
    // Above it the run is refused, at its address and elsewhere.
    m.clock = CLOCK_LIMIT + 1;
    for address in [0x4400, 0x4404] {
        let ran = to(&mut m, &mut memory, &[], Stop::At(address), 9);
        assert_eq!(ran, Err(6));
    }
    // A HLT whose cycle goes past 2^62 is halted before all else.
    let mut memory = world(&[(0x4600, 0x0001)]);
    let mut m = machine_at(0xFFFE, 0x4600);
    m.clock = CLOCK_LIMIT;
    let ran = to(&mut m, &mut memory, &[], Stop::At(0x4602), 1);
    assert_eq!(ran, Ok((End::Halted, 1)));
}

#[test]
fn the_first_instruction_of_each_service() {
    // Plain: stamp 4 breaks into step 2, the branch to 8000. The step ends at
    // the service address, and 8000 is met after its RETI, at 15.
    for (address, steps, clock) in [(0x4500, 2, 10), (0x8000, 3, 15)] {
        let (mut m, mut memory) = paper_start();
        let ran = to(&mut m, &mut memory, &[4], Stop::At(address), 20);
        assert_eq!(ran, Ok((End::Address, steps)));
        assert_eq!((m.clock, m.registers[PC]), (clock, address));
    }
    // Padded at 18, chained at 29: stamps 6 and 13. At the address again the
    // run stops at once; after a step it goes on to the next time.
    let (mut m, mut memory) = paper_start();
    let service = Stop::At(0x4500);
    let ran = to(&mut m, &mut memory, &[6, 13], service, 20);
    assert_eq!((ran, m.clock), (Ok((End::Address, 4)), 18));
    let ran = to(&mut m, &mut memory, &[6, 13], service, 20);
    assert_eq!((ran, m.clock), (Ok((End::Address, 0)), 18));
    let stepped = m.step(&mut memory, &LAYOUT, &[6, 13], NO_TRACE);
    assert_eq!((stepped, m.clock), (Ok(Outcome::Chained), 29));
    let ran = to(&mut m, &mut memory, &[6, 13], service, 20);
    assert_eq!((ran, m.clock), (Ok((End::Address, 0)), 29));
    let stepped = m.step(&mut memory, &LAYOUT, &[6, 13], NO_TRACE);
    assert_eq!((stepped, m.clock), (Ok(Outcome::Back), 35));
    let ran = to(&mut m, &mut memory, &[6, 13], service, 20);
    assert_eq!((ran, m.clock), (Ok((End::Halted, 2)), 38));
    // Padded again after the return padding, at 36: stamps 6 and 24.
    let (mut m, mut memory) = paper_start();
    let ran = to(&mut m, &mut memory, &[6, 24], service, 20);
    assert_eq!((ran, m.clock), (Ok((End::Address, 4)), 18));
    let stepped = m.step(&mut memory, &LAYOUT, &[6, 24], NO_TRACE);
    assert_eq!((stepped, m.clock), (Ok(Outcome::Padded), 36));
    assert_eq!(m.registers[PC], 0x4500);
    // 8002 where the visit goes on: stamp 5 is served at 17 in place of it, and
    // the run stops there after B at 22.
    let (mut m, mut memory) = paper_start();
    let ran = to(&mut m, &mut memory, &[5], Stop::At(0x8002), 20);
    assert_eq!((ran, m.clock), (Ok((End::Address, 4)), 22));
    assert_eq!(m.held, None);
}

#[test]
fn after_a_reset_and_in_each_section() {
    // NOP at 4400, 4402 does not decode, a reset goes to 4400: R@1 X@5 R@6.
    let mut memory = world(&[(0xFFFE, 0x4401), (0x4400, 0x4303)]);
    let begun = Machine::start(&memory).unwrap();
    let mut m = begun;
    let ran = to(&mut m, &mut memory, &[], Stop::At(0x4402), 9);
    assert_eq!((ran, m.clock), (Ok((End::Address, 1)), 1));
    let ran = to(&mut m, &mut memory, &[], Stop::At(0x4400), 9);
    assert_eq!((ran, m.clock), (Ok((End::Address, 1)), 5));
    assert_eq!((m.registers[PC], m.previous), (0x4400, 0xFFFE));
    // The vector's own word is odd; the address that pc gets is the even one.
    let ran = to(&mut m, &mut memory, &[], Stop::At(0x4401), 9);
    assert_eq!(ran, Err(11));
    // A branch into data, and one into the middle of code: pc is there before
    // the step that resets, from where it comes back.
    for target in [0x8100, 0x8102, 0x8002, 0x8006] {
        let mut memory = world(&[(0xFFFE, 0x4400), (0x4400, 0x4030), (0x4402, target)]);
        let mut m = Machine::start(&memory).unwrap();
        let ran = to(&mut m, &mut memory, &[], Stop::At(target), 9);
        assert_eq!((ran, m.clock), (Ok((End::Address, 1)), 2));
        assert_eq!(m.registers[PC], target);
        let ran = to(&mut m, &mut memory, &[], Stop::At(0x4400), 9);
        assert_eq!((ran, m.clock), (Ok((End::Address, 1)), 6));
    }
    // The entry, reached from outside, and a visit's way through the module.
    let (mut m, mut memory) = paper_start();
    for (address, steps, clock) in [(0x8000, 2, 4), (0x8002, 1, 5), (0x8006, 1, 7)] {
        let ran = to(&mut m, &mut memory, &[], Stop::At(address), 9);
        assert_eq!((ran, m.clock), (Ok((End::Address, steps)), clock));
    }
}

/// The largest budget, and one step more.
const MOST: u64 = 1_000_000;
const TOO_MANY: u64 = 1_000_001;
/// An odd stop address.
const ODD: Stop = Stop::At(0x4401);

/// A machine at 4400 with this clock, running or halted.
fn at_clock(clock: u64, halted: bool) -> Machine {
    Machine {
        clock,
        halted,
        ..machine_at(0xFFFE, 0x4400)
    }
}

#[test]
fn landmark_is_refused_after_1_2_3_10_and_4() {
    let bad_layout = Layout {
        service: 0x8000,
        ..LAYOUT
    };
    let unequal = Trace {
        stamps: &[1],
        words: &[],
    };
    let (mut short, mut memory) = (vec![0; 65_535], paper_memory());
    for halted in [false, true] {
        let mut m = at_clock(CLOCK_LIMIT + 1, halted);
        m.registers[ZERO] = 1;
        let before = m;
        let ran = m.run(&mut short, &bad_layout, &[0], unequal, ODD, TOO_MANY);
        assert_eq!(ran, Err(1));
        let ran = m.run(&mut memory, &bad_layout, &[0], unequal, ODD, TOO_MANY);
        assert_eq!(ran, Err(2));
        let ran = m.run(&mut memory, &LAYOUT, &[0], unequal, ODD, TOO_MANY);
        assert_eq!(ran, Err(3));
        let ran = m.run(&mut memory, &LAYOUT, &[1], unequal, ODD, TOO_MANY);
        assert_eq!(ran, Err(10));
        assert_eq!(to(&mut m, &mut memory, &[1], ODD, TOO_MANY), Err(4));
        assert_eq!(m, before);
    }
    assert_eq!(memory, paper_memory());
}

/// A machine with this clock, running or halted, refuses such a run by this
/// number, which leaves machine and memory as they are.
fn running_and_halted_refuse(clock: u64, stop: Stop, budget: u64, number: u8) {
    for halted in [false, true] {
        let (before, mut memory) = (at_clock(clock, halted), paper_memory());
        let mut m = before;
        let ran = to(&mut m, &mut memory, &[1], stop, budget);
        assert_eq!(
            (ran, m),
            (Err(number), before),
            "{clock} {stop:?} {budget} {halted}"
        );
        assert_eq!(memory, paper_memory());
    }
}

#[test]
fn landmark_is_refused_right_after_5_and_before_6() {
    for (clock, stop, budget, number) in [
        (CLOCK_LIMIT + 1, ODD, TOO_MANY, 5),
        (CLOCK_LIMIT + 1, ODD, MOST, 11),
        (CLOCK_LIMIT + 1, ODD, 0, 11),
        (0, ODD, TOO_MANY, 5),
        (0, ODD, MOST, 11),
        // An even one, or none: 6 is next.
        (CLOCK_LIMIT + 1, Stop::At(0x4402), TOO_MANY, 5),
        (CLOCK_LIMIT + 1, Stop::At(0x4402), MOST, 6),
        (CLOCK_LIMIT + 1, Stop::At(0x4400), TOO_MANY, 5),
        (CLOCK_LIMIT + 1, Stop::At(0x4400), MOST, 6),
        (CLOCK_LIMIT + 1, Stop::Never, TOO_MANY, 5),
        (CLOCK_LIMIT + 1, Stop::Never, MOST, 6),
    ] {
        running_and_halted_refuse(clock, stop, budget, number);
    }
}

#[test]
fn an_even_landmark_is_taken_with_the_largest_budget() {
    for (halted, end) in [(false, End::Address), (true, End::Halted)] {
        let (mut m, mut memory) = (at_clock(0, halted), paper_memory());
        let ran = to(&mut m, &mut memory, &[1], Stop::At(0x4400), MOST);
        assert_eq!(ran, Ok((end, 0)));
        assert_eq!(memory, paper_memory());
    }
}

#[test]
fn every_odd_address_is_refused_and_no_even_one() {
    let (begun, mut memory) = paper_start();
    for address in 0..=0xFFFF {
        let mut m = begun;
        let ran = to(&mut m, &mut memory, &[], Stop::At(address), 0);
        let expected = match address {
            0x4400 => Ok((End::Address, 0)),
            _ if address % 2 == 1 => Err(11),
            _ => Ok((End::Spent, 0)),
        };
        assert_eq!((ran, m), (expected, begun), "{address:04X}");
    }
}

#[test]
fn a_loop_passes_its_address_many_times() {
    // MOV #4400 0 at 4400 takes 2 cycles and goes to itself.
    let mut memory = world(&[(0x4400, 0x4030), (0x4402, 0x4400)]);
    let mut m = machine_at(0xFFFE, 0x4400);
    for round in 0..5 {
        let before = m;
        for budget in [0, 1, 50] {
            let ran = to(&mut m, &mut memory, &[], Stop::At(0x4400), budget);
            assert_eq!((ran, m), (Ok((End::Address, 0)), before));
        }
        assert_eq!(one(&mut m, &mut memory), Outcome::Ran);
        assert_eq!(m.clock, 2 * (round + 1));
    }
    // Its second word is no step's pc.
    let ran = to(&mut m, &mut memory, &[], Stop::At(0x4402), 1_000_000);
    assert_eq!(ran, Ok((End::Spent, 1_000_000)));
    // Two instructions in turn, 1 and 2 cycles: each is met after the other.
    let mut memory = world(&[(0x4400, 0x4303), (0x4402, 0x4030), (0x4404, 0x4400)]);
    let mut m = machine_at(0xFFFE, 0x4400);
    for round in 0..5 {
        let ran = to(&mut m, &mut memory, &[], Stop::At(0x4402), 9);
        assert_eq!((ran, m.clock), (Ok((End::Address, 1)), 3 * round + 1));
        let ran = to(&mut m, &mut memory, &[], Stop::At(0x4400), 9);
        assert_eq!((ran, m.clock), (Ok((End::Address, 1)), 3 * round + 3));
    }
}

#[test]
fn a_second_word_at_the_address_is_not_begun_but_where_it_is_jumped_to() {
    // MOV #4303 5 at 4400, whose second word is a NOP to one who jumps to it.
    let words = [
        (0x4400, 0x4035),
        (0x4402, 0x4303),
        (0x4404, 0x4030),
        (0x4406, 0x4402),
    ];
    let mut memory = world(&words);
    let mut m = machine_at(0xFFFE, 0x4400);
    let ran = to(&mut m, &mut memory, &[], Stop::At(0x4402), 9);
    assert_eq!((ran, m.clock), (Ok((End::Address, 2)), 4));
    assert_eq!(m.registers[5], 0x4303);
    // From there the NOP falls through to 4404.
    let ran = to(&mut m, &mut memory, &[], Stop::At(0x4404), 9);
    assert_eq!((ran, m.clock), (Ok((End::Address, 1)), 5));
}

#[test]
fn a_stop_among_a_hundred_moves() {
    // MOV 5 6 at 4400 to 44C6, 1 cycle each, then HLT; a branch into their midst.
    let mut words = vec![(0x44C8, 0x0001), (0x4300, 0x4030), (0x4302, 0x4440)];
    words.extend((0..100).map(|n| (0x4400 + 2 * n, 0x4506)));
    let mut memory = world(&words);
    for n in 0..=100 {
        let mut m = machine_at(0xFFFE, 0x4400);
        m.registers[5] = 0x5555;
        let address = 0x4400 + 2 * n;
        let ran = to(&mut m, &mut memory, &[], Stop::At(address), 1000);
        assert_eq!(ran, Ok((End::Address, n as u64)));
        assert_eq!((m.clock, m.registers[PC]), (n as u64, address));
        assert_eq!(m.registers[6], if n == 0 { 0 } else { 0x5555 });
        let ran = to(&mut m, &mut memory, &[], Stop::Never, 1000);
        assert_eq!(ran, Ok((End::Halted, 101 - n as u64)));
        assert_eq!((m.clock, m.registers[PC]), (101, 0x44CA));
    }
    // Landing there by the branch, past it, and before it.
    for (address, end, steps, clock) in [
        (0x4440, End::Address, 1, 2),
        (0x4442, End::Address, 2, 3),
        (0x443E, End::Halted, 70, 71),
    ] {
        let mut m = machine_at(0xFFFE, 0x4300);
        let ran = to(&mut m, &mut memory, &[], Stop::At(address), 1000);
        assert_eq!((ran, m.clock), (Ok((end, steps)), clock));
    }
}

#[test]
fn with_a_trace_too() {
    // IN 0 goes where the last record says: 10 at 4400 from clock 9 with a NOP
    // before it, so from clock 10 to 1110, 2 cycles.
    let mut memory = world(&[(0x43FE, 0x4303), (0x4400, 0x0010)]);
    for (address, end, steps, clock) in [
        (0x4400, End::Address, 1, 10),
        (0x1110, End::Address, 2, 12),
        (0x2222, End::Spent, 2, 12),
    ] {
        let mut m = machine_at(0xFFFE, 0x43FE);
        m.clock = 9;
        let ran = m.run(&mut memory, &LAYOUT, &[], RIDE, Stop::At(address), 2);
        assert_eq!((ran, m.clock), (Ok((end, steps)), clock), "{address:04X}");
    }
}

/// A busy memory with stamps, and its run without a stop address.
struct BusyRun {
    seed: u64,
    memory: Vec<u8>,
    stamps: Vec<u64>,
    start: Machine,
    budget: u64,
    /// Pc before each step, and at the end.
    pcs: Vec<u16>,
    machine_after: Machine,
    memory_after: Vec<u8>,
}

impl BusyRun {
    fn new(seed: u64, random: &mut Random) -> BusyRun {
        let memory = busy_memory(random);
        let stamps = random.stamps(200);
        let start = Machine::start(&memory).unwrap();
        let budget = 1 + random.below(300);
        let (mut m, mut memory_after) = (start, memory.clone());
        let mut pcs = vec![m.registers[PC]];
        for _ in 0..budget {
            m.step(&mut memory_after, &BUSY_LAYOUT, &stamps, NO_TRACE)
                .unwrap();
            pcs.push(m.registers[PC]);
        }
        BusyRun {
            seed,
            memory,
            stamps,
            start,
            budget,
            pcs,
            machine_after: m,
            memory_after,
        }
    }

    /// An address outside, one in the module, or mostly a pc of the run.
    fn some_address(&self, random: &mut Random) -> u16 {
        match random.below(4) {
            0 => 0x4400 + 2 * random.below(0x90) as u16,
            1 => 0x8000 + 2 * random.below(0x10) as u16,
            _ => self.pcs[random.below(self.pcs.len() as u64) as usize],
        }
    }

    /// The end and the steps of a run to the address: it stops at the first step
    /// with that pc.
    fn expected(&self, address: u16) -> (End, u64) {
        match self.pcs.iter().position(|&pc| pc == address) {
            Some(steps) => (End::Address, steps as u64),
            None => (End::Spent, self.budget),
        }
    }

    /// Runs to the address and from there on with what is left of the budget; tells
    /// whether the address is met.
    fn meets(&self, address: u16) -> bool {
        let (mut m, mut memory) = (self.start, self.memory.clone());
        let (end, steps) = self.expected(address);
        let met = end == End::Address;
        let mut run = |stop, budget| {
            let ran = m.run(
                &mut memory,
                &BUSY_LAYOUT,
                &self.stamps,
                NO_TRACE,
                stop,
                budget,
            );
            (ran, m)
        };
        // "No earlier step had that pc", and it stands there before the next.
        let (ran, there) = run(Stop::At(address), self.budget);
        assert_eq!(ran, Ok((end, steps)), "{} {address:04X}", self.seed);
        assert_eq!(met, there.registers[PC] == address);
        // On from there with what is left is the run without it.
        let left = self.budget - steps;
        let after = (Ok((End::Spent, left)), self.machine_after);
        assert_eq!(run(Stop::Never, left), after);
        assert!(memory == self.memory_after);
        met
    }
}

#[test]
fn landmarks_at_random() {
    let (mut met, mut spent) = (0, 0);
    for seed in 0..600 {
        let mut random = Random(seed);
        let run = BusyRun::new(seed, &mut random);
        let addresses = [(); 8].map(|()| run.some_address(&mut random));
        let met_here = addresses.iter().filter(|&&a| run.meets(a)).count();
        met += met_here;
        spent += addresses.len() - met_here;
    }
    assert!(met > 0 && spent > 0);
}

// "Bench sheet", refusals

#[test]
fn sheet_refusals() {
    let good = "L 8000 8008 8100 8104 4500";
    let says = |bytes: &[u8]| line(&bench(bytes), 0);
    let of = |text: &str| says(&sheet(text));
    let taken = "step kind clock pc sr";
    // 7 by the line.
    assert_eq!(says(b""), "E 7 1");
    assert_eq!(says(b"\n"), "E 7 1");
    assert_eq!(of("G 0"), "E 7 1");
    assert_eq!(of("M 4400 0001"), "E 7 1");
    assert_eq!(of("L 8000 8008 8100 8104"), "E 7 1");
    assert_eq!(of("L 8000 8008 8100 8104 4500 4500"), "E 7 1");
    assert_eq!(of("L 8000 8008 8100 8104 450a"), "E 7 1");
    assert_eq!(of("L 8001 8008 8100 8104 450"), "E 7 1");
    assert_eq!(of(good), "E 7 2");
    assert_eq!(of(&format!("{good} / A 5")), "E 7 3");
    assert_eq!(of(&format!("{good} / {good} / G 0")), "E 7 2");
    assert_eq!(of(&format!("{good} / M 4401 0000 / G 0")), "E 7 2");
    assert_eq!(of(&format!("{good} / M 4400 / G 0")), "E 7 2");
    assert_eq!(of(&format!("{good} / M 4400 00000 / G 0")), "E 7 2");
    assert_eq!(of(&format!("{good} / m 4400 0000 / G 0")), "E 7 2");
    assert_eq!(of(&format!("{good} / A / G 0")), "E 7 2");
    assert_eq!(of(&format!("{good} / A 05 / G 0")), "E 7 2");
    assert_eq!(of(&format!("{good} / A 00 / G 0")), "E 7 2");
    assert_eq!(of(&format!("{good} / A +5 / G 0")), "E 7 2");
    assert_eq!(
        of(&format!("{good} / A 10000000000000000000 / G 0")),
        "E 7 2"
    );
    assert_eq!(of(&format!("{good} / G")), "E 7 2");
    assert_eq!(of(&format!("{good} / G 0 / A 5")), "E 7 3");
    assert_eq!(of(&format!("{good} / G 0 / G 0")), "E 7 3");
    assert_eq!(of(&format!("{good} / G 0 /")), "E 7 3");
    assert_eq!(says(b"L\t8000\t8008\t8100\t8104\t4500\nG\t0"), "E 7 2");
    assert_eq!(
        says(b"L\t8000\t8008\t8100\t8104\t4500\nG\t1000001"),
        "E 7 2"
    );
    assert_eq!(says(b"L\t8000\t8008\t8100\t8104\t4500\nG\t0\nG"), "E 7 3");
    assert_eq!(
        says(b"L\t8000\t8008\t8100\t8104\t4500\r\nG\t0\r\n"),
        "E 7 1"
    );
    assert_eq!(says(b"L\t8000\t8008\t8100\t8104\t4500\t\nG\t0\n"), "E 7 1");
    assert_eq!(says(b"L 8000 8008 8100 8104 4500\nG\t0\n"), "E 7 1");
    // 2, 3, 5 at their own lines; the earlier line first.
    assert_eq!(of("L 8001 8008 8100 8104 4500 / X"), "E 2 1");
    assert_eq!(of(&format!("{good} / A 0 / G 0")), "E 3 2");
    assert_eq!(of(&format!("{good} / A 4611686018427387904 / G 0")), taken);
    assert_eq!(
        of(&format!("{good} / A 4611686018427387905 / G 0")),
        "E 3 2"
    );
    assert_eq!(
        of(&format!("{good} / A 9999999999999999999 / G 0")),
        "E 3 2"
    );
    assert_eq!(
        of(&format!("{good} / A 5 / M 4400 0001 / A 5 / G 0")),
        "E 3 4"
    );
    assert_eq!(of(&format!("{good} / A 5 / A 4 / X / G 0")), "E 3 3");
    assert_eq!(of(&format!("{good} / G 1000000")), taken);
    assert_eq!(of(&format!("{good} / G 1000001")), "E 5 2");
    assert_eq!(of(&format!("{good} / G 9999999999999999999 / X")), "E 5 2");
    // 8 before all.
    let mut long = vec![b'X'; 32_768];
    assert_eq!(says(&long), "E 7 1");
    long.push(b'X');
    assert_eq!(says(&long), "E 8 0");
    // Later M lines win.
    let text = format!("{good} / M FFFE 4400 / M FFFE 4401 / M 4400 4303 / M 4400 0001 / G 5");
    assert_eq!(
        bench(&sheet(&text)),
        output("step kind clock pc sr\n1 H 1 4402 0000\nH 1 1")
    );
    // A spent budget and a reset.
    let text = format!("{good} / M FFFE 4400 / G 2");
    assert_eq!(
        bench(&sheet(&text)),
        output("step kind clock pc sr\n1 X 4 4400 0000\n2 X 8 4400 0000\nS 2 8")
    );
}

// "Proved laws", tried at random

struct Random(u64);

impl Random {
    fn below(&mut self, bound: u64) -> u64 {
        self.0 = self
            .0
            .wrapping_mul(6_364_136_223_846_793_005)
            .wrapping_add(1_442_695_040_888_963_407);
        (self.0 >> 33) % bound
    }

    /// Rising stamps up to 2,000, fewer than so many.
    fn stamps(&mut self, most: u64) -> Vec<u64> {
        let count = self.below(most);
        let mut stamps: Vec<u64> = (0..count).map(|_| 1 + self.below(2000)).collect();
        stamps.sort();
        stamps.dedup();
        stamps
    }

    /// Lays down instructions out of a pool from one address up to another.
    fn fill(&mut self, memory: &mut [u8], from: u16, to: u16, pool: &[&[u16]]) {
        let mut address = from;
        while address < to {
            for &word in pool[self.below(pool.len() as u64) as usize] {
                if address < to {
                    write_word(memory, address, word);
                    address += 2;
                }
            }
        }
    }
}

/// The layout of busy memories.
const BUSY_LAYOUT: Layout = Layout {
    code_end: 0x8020,
    data_end: 0x8110,
    ..LAYOUT
};

/// Instructions outside: sp, GIE, the device, plain work, and mostly the entry.
const OUTSIDE_WORK: &[&[u16]] = &[
    &[0x4031, 0x5000],
    &[0x4032, 0x0008],
    &[0x4032, 0x0008],
    &[0x4038, 0x8104],
    &[0x403A, 0x0019, 0x002A],
    &[0x0019],
    &[0x4303],
    &[0x4030, 0x8000],
];

/// Inside: work of 1, 2, 4 and 5 cycles, and ways out.
const INSIDE_WORK: &[&[u16]] = &[
    &[0x4303],
    &[0x5607],
    &[0x4038, 0x8104],
    &[0x4038, 0x8104],
    &[0x4035, 0x4400],
    &[0x4788, 0x0000],
    &[0x4827],
    &[0xE037, 0xFFFF],
    &[0x4500],
    &[0x4030, 0x4404],
];

/// In service.
const SERVICE_WORK: &[&[u16]] = &[
    &[0x1300],
    &[0x1300],
    &[0x4303],
    &[0x4031, 0x5100],
    &[0x4032, 0x0008],
    &[0x403A, 0x0007, 0x002A],
];

/// Programs that keep busy outside, inside and in service; the one outside loops
/// and the service returns.
fn busy_memory(random: &mut Random) -> Vec<u8> {
    let mut memory = world(&[(0xFFFE, 0x4400)]);
    random.fill(&mut memory, 0x4400, 0x4440, OUTSIDE_WORK);
    write_word(&mut memory, 0x4440, 0x4030);
    write_word(&mut memory, 0x4442, 0x4400);
    random.fill(&mut memory, 0x8000, 0x8020, INSIDE_WORK);
    random.fill(&mut memory, 0x4500, 0x4510, SERVICE_WORK);
    write_word(&mut memory, 0x4510, 0x1300);
    memory
}

#[test]
fn laws_at_random() {
    let layout = Layout {
        code_end: 0x8020,
        data_end: 0x8110,
        ..LAYOUT
    };
    let mut kinds = [0u32; 7];
    let mut ended_by = [0u32; 2];
    for seed in 0..3000 {
        let mut random = Random(seed);
        let mut memory = busy_memory(&mut random);
        let stamps = random.stamps(200);
        // Every second world has records too, some at timetable stamps.
        let most = if seed % 2 == 0 { 1 } else { 100 };
        let records = random.stamps(most);
        let words: Vec<u16> = records.iter().map(|&stamp| stamp as u16).collect();
        let trace = Trace {
            stamps: &records,
            words: &words,
        };

        let mut machine = Machine::start(&memory).unwrap();
        // A visit under way: the clock at its start, what the law counts.
        let mut visit: Option<(u64, u64)> = None;
        for _ in 0..400 {
            let before = machine;
            let pc = before.registers[PC];
            let none_held = before.held.is_none();
            if none_held && layout.outside(pc) {
                if let Some((start, counted)) = visit.take() {
                    assert_eq!(before.clock - start, counted);
                    ended_by[0] += 1;
                }
            }
            if none_held && pc == layout.entry() && !layout.inside(before.previous) {
                visit = Some((before.clock, 0));
            }
            let first = read_word(&memory, pc);
            let second = read_word(&memory, pc.wrapping_add(2));
            let own = decode(first, second).map_or(0, |(i, _)| cycles(&i) as u64);
            let outcome = machine.step(&mut memory, &layout, &stamps, trace).unwrap();
            let added = machine.clock - before.clock;
            assert!((1..=23).contains(&added));
            assert!(machine.frame_valid(&layout));

            // 12 cycles from its stamp to its service.
            if outcome == Outcome::Padded {
                assert_eq!(before.slot, None);
                let from = before.clock + if none_held { 0 } else { 5 };
                let requests = stamps.iter().chain(&records).chain(&before.alarm);
                let request = requests.copied().filter(|&stamp| stamp > from).min();
                assert_eq!(machine.clock, request.unwrap() + 12);
            }

            // What the visit's law counts. A RETI that chains or resumes is
            // in the 11 or the 17.
            let returns = !none_held && first == 0x1300;
            if let Some((_, counted)) = &mut visit {
                *counted += match outcome {
                    Outcome::Ran => own,
                    Outcome::Plain => own + 6,
                    Outcome::Padded => 17 + if returns { 0 } else { own },
                    Outcome::Chained => 11,
                    Outcome::Back | Outcome::Halted => 0,
                    Outcome::Reset(_) => 4,
                };
            }
            if let Outcome::Reset(_) = outcome {
                let its_own = none_held && !layout.outside(pc);
                if let Some((start, counted)) = visit.take() {
                    if its_own {
                        assert_eq!(machine.clock - start, counted);
                        ended_by[1] += 1;
                    }
                }
            }
            kinds["RIPCBXH".find(outcome.letter()).unwrap()] += 1;
        }
    }
    println!("R I P C B X H {kinds:?}, left and reset {ended_by:?}");
    assert!(kinds[..6].iter().all(|&count| count > 0));
    assert!(ended_by.iter().all(|&count| count > 0));
}
