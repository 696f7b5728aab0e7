//! Random instructions as words, biased by where they are to stand.

use crate::random::Random;
use crate::scene::Scene;

/// Where code stands.
#[derive(Clone, Copy, PartialEq, Eq)]
pub enum Place {
    Inside,
    Service,
    Outside,
}

/// One or two words.
pub type Words = ([u16; 2], usize);

/// A share for each row of the table of instruction words, HLT first.
const INSIDE: [u64; 16] = [1, 1, 1, 4, 1, 20, 1, 16, 12, 12, 24, 12, 10, 8, 8, 8];
const SERVICE: [u64; 16] = [1, 12, 12, 2, 12, 10, 2, 8, 8, 10, 20, 4, 4, 4, 4, 4];
const OUTSIDE: [u64; 16] = [1, 8, 12, 4, 2, 16, 2, 14, 8, 10, 28, 10, 10, 8, 8, 8];

/// An instruction that decodes.
pub fn instruction(random: &mut Random, scene: &Scene, place: Place) -> Words {
    let weights = match place {
        Place::Inside => &INSIDE,
        Place::Service => &SERVICE,
        Place::Outside => &OUTSIDE,
    };
    loop {
        let row = random.weighted(weights) as u16;
        let (s, d) = (source(random), destination(random));
        if let Some(words) = words(random, scene, row, s, d) {
            return words;
        }
    }
}

/// A source register.
fn source(random: &mut Random) -> u16 {
    match random.below(8) {
        0 => random.below(4) as u16,
        1 => random.below(16) as u16,
        _ => random.between(4, 9) as u16,
    }
}

/// A destination register: pc seldom.
fn destination(random: &mut Random) -> u16 {
    match random.below(24) {
        0 => 0,
        1 => 1,
        2 | 3 => 2,
        4 => 3,
        5 => random.between(10, 15) as u16,
        _ => random.between(4, 9) as u16,
    }
}

/// The words of a row, unless the row has none for these registers.
fn words(random: &mut Random, scene: &Scene, row: u16, s: u16, d: u16) -> Option<Words> {
    let both = 0x100 * s + d;
    Some(match row {
        0 => HLT,
        1 => one(0x0010 + d),
        2 => out(s),
        3 => one(0x0030 + s),
        4 => RETI,
        5 => NOP,
        6 => one(0x4000 + 0x100 * s),
        7 if d != 0 && both != 0x303 => one(0x4000 + both),
        8 if s != 0 && s != 2 && s != 3 => one(0x4020 + both),
        9 if d != 0 && d != 2 && d != 3 => store(s, d),
        10 => load(d, constant(random, scene, d)),
        11 => one(0x5000 + both),
        12 => one(0x8000 + both),
        13 => one(0x9000 + both),
        14 => one(0xF000 + both),
        15 => not(d),
        _ => return None,
    })
}

/// A constant that suits its register: where to go, a stack, a status, a place to read or write,
/// a small number.
fn constant(random: &mut Random, scene: &Scene, d: u16) -> u16 {
    match d {
        0 => scene.target(random),
        1 if !random.one_in(4) => scene.stack,
        2 => random.pick(&[
            0x0008, 0x0008, 0x0008, 0x0000, 0x000A, 0xFFFF, 0xFFF7, 0x0102,
        ]),
        _ => match random.below(6) {
            0 => random.between(0, 24) as u16,
            1 => random.pick(&[0, 1, 0x7FFF, 0x8000, 0xFFFF]),
            2 => random.word(),
            _ => scene.spot(random),
        },
    }
}

pub const HLT: Words = one(0x0001);
pub const RETI: Words = one(0x1300);
pub const NOP: Words = one(0x4303);

/// An instruction of one word.
pub const fn one(word: u16) -> Words {
    ([word, 0], 1)
}

/// OUT s.
pub fn out(s: u16) -> Words {
    one(0x0020 + s)
}

/// MOV s 0(d).
pub fn store(s: u16, d: u16) -> Words {
    ([0x4080 + 0x100 * s + d, 0], 2)
}

/// NOT d.
pub fn not(d: u16) -> Words {
    ([0xE030 + d, 0xFFFF], 2)
}

/// MOV #w d.
pub fn load(d: u16, word: u16) -> Words {
    ([0x4030 + d, word], 2)
}
