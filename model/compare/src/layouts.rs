//! Random layouts: most are taken, with sections at both ends of memory, touching each other,
//! tiny, and the service address beside them.

use crate::random::Random;
use crate::subject::{inside, layout_taken, Addresses};

/// The last address that a section's end can be.
const LAST_END: u16 = 0xFFFE;

/// A layout that is taken.
pub fn taken(random: &mut Random) -> Addresses {
    loop {
        let [code_start, code_end, data_start, data_end] = sections(random);
        let sections = [code_start, code_end, data_start, data_end];
        for _ in 0..8 {
            let service = service(random, &sections);
            let layout = [code_start, code_end, data_start, data_end, service];
            if layout_taken(&layout) {
                return layout;
            }
        }
    }
}

/// A size in bytes: from one word to a few dozen, seldom large.
fn size(random: &mut Random) -> u16 {
    match random.below(10) {
        0 => 2,
        1 => 4,
        2 => 2 * random.between(1, 2000) as u16,
        _ => 2 * random.between(4, 40) as u16,
    }
}

/// Code and data, which may still overlap.
fn sections(random: &mut Random) -> [u16; 4] {
    let (code, data) = (size(random), size(random));
    let anywhere = random.even();
    match random.below(8) {
        0 => [0, code, anywhere, anywhere.wrapping_add(data)],
        1 => [LAST_END - code, LAST_END, 0, data],
        2 => [0, code, LAST_END - data, LAST_END],
        3 => [
            LAST_END - code,
            LAST_END,
            anywhere,
            anywhere.wrapping_add(data),
        ],
        4 => touching(anywhere, code, data),
        5 => {
            let [data_start, data_end, code_start, code_end] = touching(anywhere, data, code);
            [code_start, code_end, data_start, data_end]
        }
        6 => [0x8000, 0x8000 + code, 0xA000, 0xA000 + data],
        _ => {
            let start = random.even();
            [
                start,
                start.wrapping_add(code),
                anywhere,
                anywhere.wrapping_add(data),
            ]
        }
    }
}

/// Two sections with nothing between them.
fn touching(start: u16, first: u16, second: u16) -> [u16; 4] {
    let middle = start.wrapping_add(first);
    [start, middle, middle, middle.wrapping_add(second)]
}

/// A service address: often right beside a section or at an end of memory.
fn service(random: &mut Random, sections: &[u16; 4]) -> u16 {
    let [code_start, code_end, data_start, data_end] = *sections;
    let near = [
        code_end,
        data_end,
        code_start.wrapping_sub(2),
        data_start.wrapping_sub(2),
        0,
        LAST_END,
    ];
    if random.one_in(4) {
        random.pick(&near)
    } else {
        random.even()
    }
}

/// A layout that breaks one rule or more.
pub fn broken(random: &mut Random) -> Addresses {
    loop {
        let mut layout = taken(random);
        let [code_start, code_end, data_start, data_end, service] = layout;
        match random.below(8) {
            0 => layout[random.below(5) as usize] |= 1,
            1 => layout[0] = code_end,
            2 => layout[2] = data_end,
            3 => layout = [code_end, code_start, data_start, data_end, service],
            4 => layout[2] = code_start,
            5 => layout[4] = code_start,
            6 => layout[4] = data_end - 2,
            _ => {
                layout = [
                    random.word(),
                    random.word(),
                    random.word(),
                    random.word(),
                    random.word(),
                ]
            }
        }
        if !layout_taken(&layout) {
            return layout;
        }
    }
}

/// Addresses where something begins or ends in a layout, and their neighbours.
pub fn edge(random: &mut Random, layout: &Addresses) -> u16 {
    let base = match random.below(8) {
        place @ 0..=4 => layout[place as usize],
        5 => 0,
        _ => LAST_END,
    };
    base.wrapping_add(random.pick(&[0, 0, 0, 1, 2, 3, 0xFFFF, 0xFFFE, 0xFFFD, 0xFFFC]))
}

/// An even address in the code section.
pub fn even_inside(random: &mut Random, layout: &Addresses) -> u16 {
    let address = layout[0] + 2 * random.below((layout[1] - layout[0]) as u64 / 2) as u16;
    debug_assert!(inside(layout, address));
    address
}

/// An even address in the data section.
pub fn even_in_data(random: &mut Random, layout: &Addresses) -> u16 {
    layout[2] + 2 * random.below((layout[3] - layout[2]) as u64 / 2) as u16
}
