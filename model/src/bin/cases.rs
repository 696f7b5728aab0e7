//! Prints the expected output for a script of cases of the whole machine, read
//! from standard input: what the model answers to each call, a line each.
//!
//! A line of the script is a letter and fields: hexadecimal numbers, each after
//! one space. A line that begins with # is repeated.
//!
//! ```text
//! W            a new world: memory 0, document 01's layout, no stamps, an
//!              empty trace, nothing but 0 in the state, previous address FFFE
//! L a b c d e  layout: code start and end, data start and end, service address
//! M a w..      words in memory, from address a on
//! N n          how many bytes of the memory's 65,538 a call is lent
//! A s..   a    stamps put behind the timetable's last; an empty timetable
//! F s d n      n stamps put there: s, s + d, ..
//! V s..   v    stamps put behind the trace's last; an empty trace
//! U w..        words put behind the trace's last
//! J s d n      n stamps put behind the trace's: s, s + d, ..
//! Y w d n      n words put behind the trace's: w, w + d, ..
//! R n w        register n
//! P a          previous address
//! C n          clock
//! Q s     q    slot; an empty slot
//! D s     d    alarm; no alarm
//! H a n   h    a visit is held: its previous address and age, its registers 0
//!              but for GIE; none is held
//! K n w        register n of the saved copy; the model has none where no visit
//!              is held
//! Z       z    halted; running
//! S            start; where it is refused the machine stays as it was
//! T            step
//! G n          run with budget n
//! G n a        run with budget n and stop address a
//! ```
//!
//! ```text
//! rustc --edition 2021 -O src/bin/cases.rs --extern model=OUT/libmodel.rlib -o OUT/cases
//! OUT/cases < crates/cases/stdin > crates/cases/stdout
//! ```

use std::io::Read;

use model::{End, Layout, Machine, Outcome, SavedContext, Stop, Trace, GIE, SR};

const BYTES: usize = 65_538;
const MOST_STAMPS: usize = 4_100;

struct World {
    machine: Machine,
    layout: Layout,
    memory: Vec<u8>,
    lent: usize,
    stamps: Vec<u64>,
    trace_stamps: Vec<u64>,
    trace_words: Vec<u16>,
}

fn main() {
    let mut script = String::new();
    std::io::stdin()
        .read_to_string(&mut script)
        .expect("the script is text");
    let mut world = new_world();
    for line in script.lines() {
        if line.starts_with('#') {
            println!("{line}");
            continue;
        }
        let obeyed = parse(line).and_then(|(letter, fields)| obey(&mut world, letter, &fields));
        if obeyed.is_none() {
            println!("?");
        }
    }
}

fn new_world() -> World {
    World {
        machine: Machine {
            registers: [0; 16],
            clock: 0,
            slot: None,
            alarm: None,
            halted: false,
            previous: 0xFFFE,
            held: None,
        },
        layout: Layout::from([0x8000, 0x8008, 0x8100, 0x8104, 0x4500]),
        memory: vec![0; BYTES],
        lent: 65_536,
        stamps: Vec::new(),
        trace_stamps: Vec::new(),
        trace_words: Vec::new(),
    }
}

/// The letter and at most 8 fields of 1 to 16 digits; nothing else can be read.
fn parse(line: &str) -> Option<(char, Vec<u64>)> {
    let mut parts = line.split(' ');
    let head = parts.next()?;
    let mut letters = head.chars();
    let letter = letters.next()?;
    if letters.next().is_some() {
        return None;
    }
    let mut fields = Vec::new();
    for part in parts {
        let digits = part.chars().all(|c| c.is_ascii_hexdigit());
        if part.is_empty() || part.len() > 16 || !digits {
            return None;
        }
        fields.push(u64::from_str_radix(part, 16).ok()?);
    }
    (fields.len() <= 8).then_some((letter, fields))
}

fn word(number: u64) -> Option<u16> {
    u16::try_from(number).ok()
}

/// None where a list has no room for so many more.
fn room<T>(list: &[T], more: u64) -> Option<()> {
    (more <= (MOST_STAMPS - list.len()) as u64).then_some(())
}

fn put<T: Copy>(list: &mut Vec<T>, more: &[T]) -> Option<()> {
    room(list, more.len() as u64)?;
    list.extend_from_slice(more);
    Some(())
}

fn put_row(list: &mut Vec<u64>, first: u64, step: u64, count: u64) -> Option<()> {
    room(list, count)?;
    list.extend((0..count).map(|i| first.wrapping_add(step.wrapping_mul(i))));
    Some(())
}

/// None where the letter has no such fields.
fn obey(world: &mut World, letter: char, fields: &[u64]) -> Option<()> {
    let machine = &mut world.machine;
    match (letter, fields) {
        ('W', []) => *world = new_world(),
        ('L', &[a, b, c, d, e]) => {
            world.layout = Layout::from([word(a)?, word(b)?, word(c)?, word(d)?, word(e)?]);
        }
        ('M', [address, words @ ..]) if !words.is_empty() => {
            let address = word(*address)?;
            for &number in words {
                word(number)?;
            }
            for (i, &number) in words.iter().enumerate() {
                let low = (address as usize + 2 * i) % 65_536;
                world.memory[low] = (number % 256) as u8;
                world.memory[low + 1] = (number / 256) as u8;
            }
        }
        ('N', &[n]) if n <= BYTES as u64 => world.lent = n as usize,
        ('A', stamps) if !stamps.is_empty() => put(&mut world.stamps, stamps)?,
        ('a', []) => world.stamps.clear(),
        ('F', &[first, step, count]) => put_row(&mut world.stamps, first, step, count)?,
        ('V', stamps) if !stamps.is_empty() => put(&mut world.trace_stamps, stamps)?,
        ('J', &[first, step, count]) => put_row(&mut world.trace_stamps, first, step, count)?,
        ('U', numbers) if !numbers.is_empty() => {
            let mut words = Vec::new();
            for &number in numbers {
                words.push(word(number)?);
            }
            put(&mut world.trace_words, &words)?;
        }
        ('Y', &[first, step, count]) => {
            let (first, step) = (word(first)?, word(step)?);
            room(&world.trace_words, count)?;
            let row = (0..count as u16).map(|i| first.wrapping_add(step.wrapping_mul(i)));
            world.trace_words.extend(row);
        }
        ('v', []) => {
            world.trace_stamps.clear();
            world.trace_words.clear();
        }
        ('R', &[n, w]) if n < 16 => machine.registers[n as usize] = word(w)?,
        ('P', &[a]) => machine.previous = word(a)?,
        ('C', &[clock]) => machine.clock = clock,
        ('Q', &[stamp]) => machine.slot = Some(stamp),
        ('q', []) => machine.slot = None,
        ('D', &[stamp]) => machine.alarm = Some(stamp),
        ('d', []) => machine.alarm = None,
        ('H', &[previous, age]) if age < 256 => {
            let mut registers = [0; 16];
            registers[SR] = GIE;
            machine.held = Some(SavedContext {
                registers,
                previous: word(previous)?,
                age,
            });
        }
        ('h', []) => machine.held = None,
        ('K', &[n, w]) if n < 16 => {
            let w = word(w)?;
            if let Some(held) = &mut machine.held {
                held.registers[n as usize] = w;
            }
        }
        ('Z', []) => machine.halted = true,
        ('z', []) => machine.halted = false,
        ('S', []) => start(world),
        ('T', []) => step(world),
        ('G', &[budget]) => run(world, Stop::Never, budget),
        ('G', &[budget, address]) => run(world, Stop::At(word(address)?), budget),
        _ => return None,
    }
    Some(())
}

fn start(world: &mut World) {
    match Machine::start(&world.memory[..world.lent]) {
        Ok(machine) => {
            world.machine = machine;
            println!("S ok {} {}", state(&world.machine), sums(&world.memory));
        }
        Err(number) => println!("S E {number} {}", sums(&world.memory)),
    }
}

fn step(world: &mut World) {
    let lent = &mut world.memory[..world.lent];
    let trace = Trace {
        stamps: &world.trace_stamps,
        words: &world.trace_words,
    };
    let stepped = world
        .machine
        .step(lent, &world.layout, &world.stamps, trace);
    let answer = match stepped {
        Ok(Outcome::Reset(cause)) => format!("X {cause}"),
        Ok(outcome) => outcome.letter().to_string(),
        Err(number) => format!("E {number}"),
    };
    println!(
        "T {answer} {} {}",
        state(&world.machine),
        sums(&world.memory)
    );
}

fn run(world: &mut World, stop: Stop, budget: u64) {
    let lent = &mut world.memory[..world.lent];
    let trace = Trace {
        stamps: &world.trace_stamps,
        words: &world.trace_words,
    };
    let ran = world
        .machine
        .run(lent, &world.layout, &world.stamps, trace, stop, budget);
    let answer = match ran {
        Ok((end, steps)) => format!("{} {steps}", End::letter(&end)),
        Err(number) => format!("E {number}"),
    };
    println!(
        "G {answer} {} {}",
        state(&world.machine),
        sums(&world.memory)
    );
}

fn registers(words: &[u16; 16]) -> String {
    let words: Vec<String> = words.iter().map(|word| format!("{word:04x}")).collect();
    words.join(" ")
}

fn stamp(stamp: Option<u64>) -> String {
    stamp.map_or("none".to_string(), |stamp| stamp.to_string())
}

fn state(machine: &Machine) -> String {
    let held = match &machine.held {
        None => "free".to_string(),
        Some(held) => format!(
            "held {:04x} {} {}",
            held.previous,
            held.age,
            registers(&held.registers)
        ),
    };
    format!(
        "clock {} registers {} previous {:04x} slot {} alarm {} {held}{}",
        machine.clock,
        registers(&machine.registers),
        machine.previous,
        stamp(machine.slot),
        stamp(machine.alarm),
        if machine.halted { " halted" } else { "" },
    )
}

/// Two sums: of the bytes, and of that sum as it stood after each byte.
fn sums(memory: &[u8]) -> String {
    let mut bytes: u64 = 0;
    let mut places: u64 = 0;
    for &byte in memory {
        bytes = bytes.wrapping_add(byte as u64);
        places = places.wrapping_add(bytes);
    }
    format!("sums {bytes:x} {places:x}")
}
