//! Random bench sheets, good and damaged, as text.

use crate::calm;
use crate::layouts;
use crate::random::Random;
use crate::rides;
use crate::scene::{self, Scene};
use crate::subject::{word_at, Addresses, CLOCK_LIMIT};
use crate::timetables;

/// The most bytes of a sheet.
pub const MOST_BYTES: usize = 32_768;

/// A sheet by its lines, each without its newline.
struct Lines(Vec<String>);

/// A sheet, one in two damaged. The most steps that a good one asks for are given.
pub fn sheet(random: &mut Random, most: u64) -> Vec<u8> {
    let mut lines = good(random, most);
    match random.below(4) {
        0 => {
            damage_lines(random, &mut lines);
            text(&lines)
        }
        1 => {
            let mut bytes = text(&lines);
            damage_bytes(random, &mut bytes);
            bytes
        }
        _ => text(&lines),
    }
}

fn text(lines: &Lines) -> Vec<u8> {
    let mut bytes = Vec::new();
    for line in &lines.0 {
        bytes.extend_from_slice(line.as_bytes());
        bytes.push(b'\n');
    }
    bytes
}

/// A sheet that is taken, unless its program is too long for one.
fn good(random: &mut Random, most: u64) -> Lines {
    let (scene, memory) = if random.one_in(2) {
        wild_scene(random)
    } else {
        calm::world(random)
    };
    let mut stamps = timetables::taken(random, 0);
    if !random.one_in(6) {
        stamps.truncate(60);
    }
    let mut ride = rides::taken(random, &scene, 0, &stamps);
    if !random.one_in(6) {
        ride.truncate(60);
    }
    let records = ride.stamps.iter().zip(&ride.words);
    let mut records = records.map(|(stamp, word)| format!("T\t{stamp}\t{word:04X}"));
    let mut body = Vec::new();
    for stamp in stamps {
        // A and T lines in any order, each list in its own.
        body.extend(records.by_ref().take(random.below(3) as usize));
        body.push(format!("A\t{stamp}"));
    }
    body.extend(records);
    let mut place = 0;
    for address in (0..0xFFFF).step_by(2) {
        let word = word_at(&memory, address);
        if word != 0 {
            // M and A lines in any order, with an earlier word here and there.
            place = (place + random.below(3) as usize).min(body.len());
            if random.one_in(20) {
                body.insert(place, format!("M\t{address:04X}\t{:04X}", random.word()));
                place += 1;
            }
            body.insert(place, format!("M\t{address:04X}\t{word:04X}"));
            place += 1;
        }
    }
    let budget = if random.one_in(16) {
        0
    } else {
        random.between(1, most)
    };
    let mut lines = vec![layout_line(&scene.layout)];
    lines.append(&mut body);
    lines.push(format!("G\t{budget}"));
    Lines(lines)
}

fn wild_scene(random: &mut Random) -> (Scene, Vec<u8>) {
    let scene = Scene::new(random);
    let memory = scene::memory(random, &scene, false);
    (scene, memory)
}

fn layout_line(layout: &Addresses) -> String {
    let [a, b, c, d, e] = layout;
    format!("L\t{a:04X}\t{b:04X}\t{c:04X}\t{d:04X}\t{e:04X}")
}

/// Lines that can't be read, or whose values are refused, wherever they stand.
const BAD_LINES: [&str; 45] = [
    "",
    "M",
    "M\t4400",
    "M\t4401\t0000",
    "M\t4400\t000g",
    "M\t4400\tabcd",
    "M\t440\t0000",
    "M\t04400\t0000",
    "M\t4400\t0000\t",
    "M 4400 0000",
    " M\t4400\t0000",
    "m\t4400\t0000",
    "A",
    "A\t",
    "A\t0",
    "A\t00",
    "A\t01",
    "A\t+1",
    "A\t-1",
    "A\t10000000000000000000",
    "A\t9999999999999999999",
    "A\t4611686018427387905",
    "A\t5\t1234",
    "T",
    "T\t5",
    "T\t5\t",
    "T\t\t1234",
    "T\t5\t1234\t",
    "T\t5\t123",
    "T\t5\t12345",
    "T\t5\t12a4",
    "T\t05\t1234",
    "T\t+5\t1234",
    "T 5 1234",
    "t\t5\t1234",
    "T\t0\t1234",
    "T\t0\tabcd",
    "T\t4611686018427387905\t1234",
    "T\t9999999999999999999\t1234",
    "T\t9999999999999999999\t123",
    "T\t10000000000000000000\t1234",
    "G\t01",
    "G\t1000001",
    "G\t5\t",
    "L\t8000\t8008\t8100\t8104\t4500",
];

/// Damage that keeps lines whole.
fn damage_lines(random: &mut Random, lines: &mut Lines) {
    let count = lines.0.len() as u64;
    let place = random.below(count) as usize;
    match random.below(15) {
        0 => lines.0[0] = layout_line(&layouts::broken(random)),
        1..=3 => lines.0.insert(place, random.pick(&BAD_LINES).into()),
        4 => lines.0[place] = random.pick(&BAD_LINES).into(),
        5 => drop(lines.0.remove(place)),
        6 => lines.0.swap(place, random.below(count) as usize),
        7 => drop(lines.0.pop()),
        8 => lines.0.push(
            random
                .pick(&["M\t4400\t0000", "G\t1", "", "A\t7", "T\t7\t0000", "x"])
                .into(),
        ),
        9 => falling(random, lines),
        10 => many_stamps(random, lines),
        11 | 12 => falling_records(random, lines),
        13 => many_records(random, lines),
        _ => {
            lines.0.pop();
            let budget = random.pick(&[
                1_000_001u64,
                9_999_999_999_999_999_999,
                1_000_000_000_000_000_000,
            ]);
            lines.0.push(format!("G\t{budget}"));
        }
    }
}

/// A stamp that does not rise, or the largest that is taken and one above it.
fn falling(random: &mut Random, lines: &mut Lines) {
    let place = lines.0.len() - 1;
    let stamp = random.pick(&[1, 2, 50, CLOCK_LIMIT]);
    let second = random.pick(&[stamp, stamp - 1, stamp + 1]);
    lines.0.insert(place, format!("A\t{second}"));
    lines.0.insert(place, format!("A\t{stamp}"));
}

/// The same of two records, which are above the records before them in some sheets.
fn falling_records(random: &mut Random, lines: &mut Lines) {
    let place = lines.0.len() - 1;
    let stamp = random.pick(&[1, 2, 50, 1 << 60, CLOCK_LIMIT]);
    let second = random.pick(&[stamp, stamp - 1, stamp + 1]);
    for stamp in [second, stamp] {
        lines
            .0
            .insert(place, format!("T\t{stamp}\t{:04X}", random.word()));
    }
}

/// As many records as a sheet has room for; in some sheets the last is not above the one before it.
fn many_records(random: &mut Random, lines: &mut Lines) {
    let layout = lines.0.swap_remove(0);
    let mut all = vec![layout];
    all.extend((1..=2819).map(|stamp| format!("T\t{stamp}\t{:04X}", random.word())));
    all.push(format!("T\t{}\t0000", random.pick(&[2820, 2820, 2819])));
    all.push(format!("G\t{}", random.below(10)));
    lines.0 = all;
}

/// As many stamps as are taken, or one more.
fn many_stamps(random: &mut Random, lines: &mut Lines) {
    let layout = lines.0.swap_remove(0);
    let mut all = vec![layout];
    all.extend((1..=random.pick(&[4096, 4097, 4098])).map(|stamp| format!("A\t{stamp}")));
    all.push(format!("G\t{}", random.below(40)));
    lines.0 = all;
}

/// Damage to bytes.
fn damage_bytes(random: &mut Random, bytes: &mut Vec<u8>) {
    let place = random.below(bytes.len() as u64) as usize;
    let byte = random.pick(&[
        b'\t', b'\n', b'\r', b' ', b'0', b'a', b'F', b'G', 0, 0x80, 0xFF,
    ]);
    let (above, below) = (random.between(1, 4) as usize, random.below(3) as usize);
    match random.below(10) {
        0 => bytes[place] = byte,
        1 => bytes.insert(place, byte),
        2 => drop(bytes.remove(place)),
        3 => drop(bytes.pop()),
        4 => bytes.truncate(place),
        5 => bytes[place] ^= 1 << random.below(8),
        6 => bytes.clear(),
        7 => {
            *bytes = (0..random.below(200))
                .map(|_| random.next() as u8)
                .collect()
        }
        8 => *bytes = full(random, MOST_BYTES + above),
        _ => *bytes = full(random, MOST_BYTES - below),
    }
}

/// A sheet of so many bytes, good but for its size: M lines, then two stamps whose digits make it
/// come out even.
fn full(random: &mut Random, size: usize) -> Vec<u8> {
    let (layout, last) = ("L\t8000\t8008\t8100\t8104\t4500\n", "G\t7\n");
    let mut text = layout.to_string();
    while text.len() + last.len() + 34 <= size {
        text += &format!("M\t{:04X}\t{:04X}\n", random.even(), random.word());
    }
    let digits = size - text.len() - last.len() - 6;
    let first = digits / 2 - 1;
    let stamp = |digits: usize| 10u64.pow(digits as u32 - 1);
    text += &format!("A\t{}\nA\t{}\n", stamp(first), stamp(digits - first));
    text += last;
    text.into_bytes()
}
