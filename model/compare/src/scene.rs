//! A layout with the programs around it: outside code that enters the enclave module, its code,
//! the service routine, the way back.

use crate::instructions::{instruction, load, one, out, Place, Words, HLT, RETI};
use crate::layouts;
use crate::random::Random;
use crate::subject::{put_word, Addresses, MEMORY_BYTES};

/// A layout and the places that programs use.
#[derive(Clone, Debug)]
pub struct Scene {
    pub layout: Addresses,
    /// Where the reset vector points.
    pub main: u16,
    /// Where the module's exits go.
    pub back: u16,
    pub stack: u16,
}

impl Scene {
    /// A scene on a layout that is taken.
    pub fn new(random: &mut Random) -> Scene {
        let layout = layouts::taken(random);
        let stack = match random.below(8) {
            0 => random.pick(&[0, 2, 4, 0xFFFE]),
            1 => layouts::edge(random, &layout) & 0xFFFE,
            _ => free(random, &layout, 16),
        };
        let main = free(random, &layout, 64);
        let back = free(random, &layout, 64);
        Scene {
            layout,
            main,
            back,
            stack,
        }
    }

    pub fn entry(&self) -> u16 {
        self.layout[0]
    }

    pub fn service(&self) -> u16 {
        self.layout[4]
    }

    /// A place to jump to.
    pub fn target(&self, random: &mut Random) -> u16 {
        match random.below(8) {
            0 | 1 => self.entry(),
            2 | 3 => self.back,
            4 => self.main,
            5 => self.service(),
            6 => layouts::even_inside(random, &self.layout),
            _ if random.one_in(2) => self.last_word(random),
            _ => self.spot(random),
        }
    }

    /// The last word before a border between sections.
    fn last_word(&self, random: &mut Random) -> u16 {
        let [code_start, code_end, data_start, ..] = self.layout;
        random
            .pick(&[code_end, code_end, code_start, data_start])
            .wrapping_sub(2)
    }

    /// A place to read, write or jump to.
    pub fn spot(&self, random: &mut Random) -> u16 {
        match random.below(8) {
            0 | 1 => layouts::even_in_data(random, &self.layout),
            2 => layouts::even_inside(random, &self.layout),
            3 => layouts::edge(random, &self.layout),
            4 => self.stack.wrapping_sub(2 * random.below(6) as u16),
            5 => self.target(random),
            6 => random.word(),
            _ => self.main.wrapping_add(2 * random.below(8) as u16),
        }
    }
}

/// An address with some bytes outside from there on, if a few tries find one.
fn free(random: &mut Random, layout: &Addresses, bytes: u16) -> u16 {
    let mut address = 0;
    for _ in 0..10 {
        address = random.even();
        let end = address as usize + bytes as usize;
        let apart = |start: u16, stop: u16| end <= start as usize || stop <= address;
        if end < 0xFFF0 && apart(layout[0], layout[1]) && apart(layout[2], layout[3]) {
            break;
        }
    }
    address
}

/// Writes instructions one after another.
pub struct Writer<'a> {
    pub memory: &'a mut [u8],
    pub at: u16,
}

impl Writer<'_> {
    pub fn new(memory: &mut [u8], at: u16) -> Writer<'_> {
        Writer { memory, at }
    }

    pub fn put(&mut self, (words, length): Words) {
        for word in &words[..length] {
            put_word(self.memory, self.at, *word);
            self.at = self.at.wrapping_add(2);
        }
    }
}

/// A memory with the scene's programs; what is between them is 0, or instructions.
pub fn memory(random: &mut Random, scene: &Scene, filled: bool) -> Vec<u8> {
    let mut bytes = vec![0; MEMORY_BYTES];
    let memory = &mut bytes;
    if filled {
        fill(random, scene, memory);
    }
    main_program(random, scene, &mut Writer::new(memory, scene.main));
    way_back(random, scene, &mut Writer::new(memory, scene.back));
    module(random, scene, memory);
    data(random, scene, memory);
    border(random, scene, memory);
    service(random, scene, &mut Writer::new(memory, scene.service()));
    stack(random, scene, memory);
    let vector = match random.below(20) {
        0 => scene.target(random),
        _ => scene.main,
    };
    put_word(memory, 0xFFFE, vector | random.one_in(8) as u16);
    bytes
}

/// Places on the stack, for RETI to go to.
fn stack(random: &mut Random, scene: &Scene, memory: &mut [u8]) {
    for above in 1..4 {
        if random.one_in(3) {
            let place = scene.stack.wrapping_add(2 * above);
            put_word(memory, place, scene.target(random));
        }
    }
}

/// Instructions of two words whose second word is beyond a border, and some code that falls into
/// one.
fn border(random: &mut Random, scene: &Scene, memory: &mut [u8]) {
    while random.one_in(2) {
        let place = scene.last_word(random);
        put_word(memory, place, random.pick(&[0xE035, 0x4585, 0x4035]));
        put_word(memory, place.wrapping_sub(2), 0x4303);
    }
}

/// Fills memory with instructions, and a few words that are none.
fn fill(random: &mut Random, scene: &Scene, memory: &mut [u8]) {
    let mut writer = Writer::new(memory, 0);
    let mut left = MEMORY_BYTES as isize / 2;
    while left > 0 {
        let words = match random.below(24) {
            0 => one(random.word()),
            _ => instruction(random, scene, Place::Outside),
        };
        writer.put(words);
        left -= words.1 as isize;
    }
}

/// Some random instructions.
fn body(random: &mut Random, scene: &Scene, writer: &mut Writer, place: Place, most: u64) {
    for _ in 0..random.below(most + 1) {
        writer.put(instruction(random, scene, place));
    }
}

/// Sets up the stack, allows interrupts, goes to the entry.
fn main_program(random: &mut Random, scene: &Scene, writer: &mut Writer) {
    writer.put(load(1, scene.stack));
    if !random.one_in(6) {
        writer.put(load(2, 8));
    }
    writer.put(load(
        random.between(4, 9) as u16,
        layouts::even_in_data(random, &scene.layout),
    ));
    body(random, scene, writer, Place::Outside, 5);
    if random.one_in(3) {
        alarm(random, writer);
    }
    writer.put(load(0, scene.entry()));
}

/// Sets the alarm to a little later.
fn alarm(random: &mut Random, writer: &mut Writer) {
    let register = random.between(4, 9) as u16;
    writer.put(load(register, random.between(0, 40) as u16));
    writer.put(out(register));
}

/// What the module's exits come to: then in again, from the start, or halted.
fn way_back(random: &mut Random, scene: &Scene, writer: &mut Writer) {
    body(random, scene, writer, Place::Outside, 4);
    if random.one_in(3) {
        alarm(random, writer);
    }
    match random.below(8) {
        0 => writer.put(HLT),
        1 => writer.put(load(0, scene.main)),
        2 => writer.put(RETI),
        _ => writer.put(load(0, scene.entry())),
    }
}

/// The service routine: it may allow interrupts to nest, use the stack and the device; most end
/// in RETI.
fn service(random: &mut Random, scene: &Scene, writer: &mut Writer) {
    if random.one_in(3) {
        let stack = if random.one_in(4) {
            scene.spot(random)
        } else {
            scene.stack
        };
        writer.put(load(1, stack));
    }
    if random.one_in(4) {
        writer.put(load(2, 8));
    }
    if random.one_in(4) {
        alarm(random, writer);
    }
    body(random, scene, writer, Place::Service, 4);
    match random.below(24) {
        0 => writer.put(load(0, scene.entry())),
        1 => writer.put(load(0, scene.target(random))),
        2 => writer.put(HLT),
        _ => writer.put(RETI),
    }
}

/// The module's code: some ends early, some loops, some falls off its end.
fn module(random: &mut Random, scene: &Scene, memory: &mut [u8]) {
    let [code_start, code_end, ..] = scene.layout;
    let mut writer = Writer::new(memory, code_start);
    for register in 4..7 {
        if random.one_in(2) {
            writer.put(load(register, layouts::even_in_data(random, &scene.layout)));
        }
    }
    let room = |writer: &Writer, bytes: u16| {
        writer.at >= code_start && writer.at.saturating_add(bytes) <= code_end
    };
    let early = random.between(1, 30);
    let mut count = 0;
    while room(&writer, 8) && count < early {
        writer.put(instruction(random, scene, Place::Inside));
        count += 1;
    }
    if room(&writer, 8) && random.one_in(6) {
        // RETI inside, with its two words in the data.
        writer.put(load(1, layouts::even_in_data(random, &scene.layout)));
        writer.put(RETI);
    }
    if room(&writer, 4) {
        let way_out = match random.below(8) {
            0 => scene.entry(),
            1 => scene.target(random),
            _ => scene.back,
        };
        writer.put(load(0, way_out));
    }
    while room(&writer, 2) && count < 200 {
        writer.put(instruction(random, scene, Place::Inside));
        count += 1;
    }
}

/// The module's data: places, small numbers, noise.
fn data(random: &mut Random, scene: &Scene, memory: &mut [u8]) {
    let [_, _, start, end, _] = scene.layout;
    for step in 0..((end - start) / 2).min(64) {
        let word = match random.below(4) {
            0 => random.word(),
            1 => random.below(10) as u16,
            _ => scene.spot(random),
        };
        put_word(memory, start + 2 * step, word);
    }
}
