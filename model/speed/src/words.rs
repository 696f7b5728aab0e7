//! Instruction words to read, in an order that is random but always the same: too long a list for a branch predictor to learn by heart.

use crate::modelled;
use crate::random::Random;

/// A first word and what stands behind it.
pub type Pair = [u16; 2];

/// The length of the lists of rows, a multiple of their number.
const COUNT: usize = 65_536;

/// The rows of the table of instruction words: the first word with registers 0, the digits of registers, the one right second word.
const ROWS: [(u16, u16, Option<u16>); 16] = [
    (0x0001, 0x0000, None),         // HLT
    (0x0010, 0x000F, None),         // IN d
    (0x0020, 0x000F, None),         // OUT s
    (0x0030, 0x000F, None),         // JZ &s
    (0x1300, 0x0000, None),         // RETI
    (0x4303, 0x0000, None),         // NOP
    (0x4000, 0x0F00, None),         // JMP &s
    (0x4000, 0x0F0F, None),         // MOV s d
    (0x4020, 0x0F0F, None),         // MOV @s d
    (0x4080, 0x0F0F, Some(0x0000)), // MOV s 0(d)
    (0x4030, 0x000F, None),         // MOV #w d
    (0x5000, 0x0F0F, None),         // ADD s d
    (0x8000, 0x0F0F, None),         // SUB s d
    (0x9000, 0x0F0F, None),         // CMP s d
    (0xF000, 0x0F0F, None),         // AND s d
    (0xE030, 0x000F, Some(0xFFFF)), // NOT d
];

/// Register moves and immediates, half of each.
pub fn moves() -> Vec<Pair> {
    of_rows(&[7, 10])
}

/// All rows, each as often as any.
pub fn every_row() -> Vec<Pair> {
    of_rows(&Vec::from_iter(0..ROWS.len()))
}

/// Each first word that begins no instruction, once.
pub fn undecoded() -> Vec<Pair> {
    let mut random = Random::new(1);
    let begins_none = |&first: &u16| model::begins(first).is_none();
    let pair = |first| [first, random.word()];
    let mut pairs: Vec<Pair> = (0..=u16::MAX).filter(begins_none).map(pair).collect();
    random.shuffle(&mut pairs);
    pairs
}

/// Words of these rows, each as often as any.
fn of_rows(rows: &[usize]) -> Vec<Pair> {
    let mut random = Random::new(rows.len() as u64);
    let pair = |&row: &usize| of_row(row, &mut random);
    let mut pairs: Vec<Pair> = rows.iter().cycle().take(COUNT).map(pair).collect();
    random.shuffle(&mut pairs);
    pairs
}

/// Words of one row: registers that it does not take are drawn anew.
fn of_row(row: usize, random: &mut Random) -> Pair {
    let (bits, registers, second) = ROWS[row];
    loop {
        let first = bits | (random.word() & registers);
        let pair = [first, second.unwrap_or(random.word())];
        if modelled::read(pair).is_some_and(|answer| usize::from(answer.fields[0]) == row) {
            return pair;
        }
    }
}
