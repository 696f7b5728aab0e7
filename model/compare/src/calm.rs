//! Scenes that behave: modules that take the same time and leave alike whatever they do, outside
//! code and service routines that look at the clock. Pairs of such modules meet the premise of
//! secrecy.

use crate::instructions::{load, not, one, out, store, Words, HLT, NOP, RETI};
use crate::random::Random;
use crate::scene::{Scene, Writer};
use crate::subject::{layout_taken, put_word, Addresses, MEMORY_BYTES};

/// A scene with room for a calm module.
pub fn scene(random: &mut Random) -> Scene {
    let layout = layout(random);
    // The other places are far from the sections, which lie at 8000 and above, or at 0.
    let at = |block: u16| 0x3000 + 0x400 * block;
    Scene {
        layout,
        main: at(random.below(3) as u16),
        back: at(3 + random.below(3) as u16),
        stack: at(7) - 2 * random.below(8) as u16,
    }
}

/// A calm scene with its memory.
pub fn world(random: &mut Random) -> (Scene, Vec<u8>) {
    let scene = scene(random);
    let mut memory = outside_memory(random, &scene);
    let manner = Manner::new(random);
    put_module(random, &scene, manner, &mut memory);
    (scene, memory)
}

/// Sections apart, touching, or at the ends of memory; service routines elsewhere or right beside.
fn layout(random: &mut Random) -> Addresses {
    loop {
        let code = 2 * random.between(70, 120) as u16;
        let data = 2 * random.between(5, 20) as u16;
        let [code_start, data_start] = match random.below(5) {
            0 => [0, 0xFFFE - data],
            1 => [0xFFFE - code, 0],
            2 => [0x8000, 0x8000 + code],
            3 => [0x8000 + data, 0x8000],
            _ => [0x8000, 0xA000],
        };
        let sections = [code_start, code_start + code, data_start, data_start + data];
        let beside = random.pick(&[sections[1], sections[3], 0x5000]);
        let service = random.pick(&[0x5000, 0x5000, beside]);
        let layout = [sections[0], sections[1], sections[2], sections[3], service];
        if layout_taken(&layout) && service < 0xFF00 {
            return layout;
        }
    }
}

/// ADD, SUB, CMP, AND.
const COMPUTING: [u16; 4] = [0x5000, 0x8000, 0x9000, 0xF000];

/// Words that cause a reset inside: HLT, IN, OUT, two that begin no instruction, and one that is
/// followed by a wrong word.
const BARRED: [u16; 6] = [0x0001, 0x0014, 0x0025, 0x0000, 0x432A, 0x4384];

/// How a module ends its visits.
#[derive(Clone, Copy, PartialEq, Eq)]
enum Ending {
    Leaves,
    /// Leaves by RETI, with its words in the data.
    Returns,
    Resets,
}

/// What two calm modules have in common.
#[derive(Clone, Copy)]
pub struct Manner {
    cycles: u64,
    ending: Ending,
    constant: u16,
}

impl Manner {
    pub fn new(random: &mut Random) -> Manner {
        Manner {
            cycles: random.between(0, 34),
            ending: random.pick(&[
                Ending::Leaves,
                Ending::Leaves,
                Ending::Leaves,
                Ending::Returns,
                Ending::Resets,
            ]),
            constant: random.word(),
        }
    }

    /// Another time: pairs with it break the premise at the first end.
    pub fn slower(self, random: &mut Random) -> Manner {
        Manner {
            cycles: self.cycles + random.between(1, 4),
            ..self
        }
    }
}

/// The memory of a scene but for the module's bytes.
pub fn outside_memory(random: &mut Random, scene: &Scene) -> Vec<u8> {
    let mut memory = vec![0; MEMORY_BYTES];
    let mut writer = Writer::new(&mut memory, scene.main);
    writer.put(load(1, scene.stack));
    if !random.one_in(8) {
        writer.put(load(2, 8));
    }
    look(random, &mut writer);
    writer.put(load(0, scene.entry()));
    writer.at = scene.back;
    if !random.one_in(3) {
        writer.put(load(1, scene.stack));
    }
    for _ in 0..random.below(3) {
        look(random, &mut writer);
    }
    match random.below(12) {
        0 => writer.put(HLT),
        1 => writer.put(load(0, scene.main)),
        _ => writer.put(load(0, scene.entry())),
    }
    writer.at = scene.service();
    service(random, scene, &mut writer);
    put_word(&mut memory, 0xFFFE, scene.main);
    memory
}

/// The service routine: some let interrupts nest, some set the alarm, all but a few return.
fn service(random: &mut Random, scene: &Scene, writer: &mut Writer) {
    if random.one_in(3) {
        writer.put(load(1, scene.stack - 0x40));
        if random.one_in(2) {
            writer.put(load(2, 8));
        }
    }
    for _ in 0..random.below(3) {
        look(random, writer);
    }
    match random.below(40) {
        0 => writer.put(load(0, scene.entry())),
        1 => writer.put(HLT),
        _ => writer.put(RETI),
    }
}

/// Outside code that shows when it runs: it stores the clock, or sets the alarm, or passes time.
fn look(random: &mut Random, writer: &mut Writer) {
    let register = random.between(4, 9) as u16;
    match random.below(4) {
        0 => {
            writer.put(one(0x0010 + register));
            writer.put(load(10, 0x2000 + 2 * random.below(64) as u16));
            writer.put(store(register, 10));
        }
        1 => {
            writer.put(load(register, random.between(1, 60) as u16));
            writer.put(out(register));
        }
        2 => writer.put(NOP),
        _ => writer.put(one(0x5000 + 0x101 * register)),
    }
}

/// Puts a module of a manner into memory: code, data and the noise after the code.
pub fn put_module(random: &mut Random, scene: &Scene, manner: Manner, memory: &mut [u8]) {
    let [code_start, code_end, data_start, data_end, _] = scene.layout;
    for address in (code_start..code_end).chain(data_start..data_end) {
        memory[address as usize] = random.next() as u8;
    }
    // The words that a RETI inside takes are at the data's start, and the module's own data at
    // its end.
    put_word(memory, data_start, manner.constant);
    put_word(memory, data_start + 2, scene.back);
    let mut writer = Writer::new(memory, code_start);
    writer.put(load(10, data_end - 2 * random.between(1, 3) as u16));
    body(random, manner.cycles, &mut writer);
    match manner.ending {
        Ending::Leaves => {
            clear(manner.constant, &mut writer);
            writer.put(load(0, scene.back));
        }
        Ending::Returns => {
            clear(manner.constant, &mut writer);
            writer.put(load(1, data_start));
            writer.put(RETI);
        }
        // Any of several causes; none of them shows.
        Ending::Resets => writer.put(one(random.pick(&BARRED))),
    }
}

/// Instructions that take so many cycles together, on r4 to r9, the status and the data at r10.
fn body(random: &mut Random, cycles: u64, writer: &mut Writer) {
    let mut left = cycles;
    while left > 0 {
        let (words, cost) = unit(random);
        if cost <= left {
            writer.put(words);
            left -= cost;
        }
    }
}

/// An instruction and its cycles.
fn unit(random: &mut Random) -> (Words, u64) {
    let (s, d) = (random.between(2, 9) as u16, random.between(4, 9) as u16);
    let both = 0x100 * s + d;
    match random.below(12) {
        0..=2 => (NOP, 1),
        3 => (one(random.pick(&COMPUTING) + both), 1),
        4 => (one(0x4000 + both), 1),
        5 => (one(0x4A20 + d), 2),
        6 => (load(d, random.word()), 2),
        7 => (load(2, random.word()), 2),
        8 => (not(d), 2),
        9 => (one(0x5002 + 0x100 * s), 1),
        _ => (store(d, 10), 4),
    }
}

/// Sets every register that the module used.
fn clear(constant: u16, writer: &mut Writer) {
    for register in 4..=10 {
        writer.put(load(register, constant));
    }
    writer.put(load(2, 0));
    // CMP 3 3: only Z.
    writer.put(one(0x9303));
}
