//! States that no start gave: ones that only a caller could invent, and ones with a broken frame.

use crate::layouts::{edge, even_in_data, even_inside};
use crate::random::Random;
use crate::scene::Scene;
use crate::subject::{State, CLOCK_LIMIT, GIE, PC, SP, SR, ZERO};

/// A state with a frame that is kept; its clock may be above 2^62.
pub fn invented(random: &mut Random, scene: &Scene) -> State {
    let clock = clock(random);
    let mut state = State {
        registers: registers(random, scene),
        saved: [0; 16],
        previous: previous(random, scene),
        halted: random.one_in(24) as u16,
        held: 0,
        held_previous: 0,
        held_age: 0,
        clock,
        slot: slot(random, clock),
        alarm: alarm(random, clock),
    };
    if random.one_in(4) {
        state.registers[PC] = even_inside(random, &scene.layout);
        state.previous = even_inside(random, &scene.layout);
    }
    if random.one_in(3) {
        hold(random, scene, &mut state);
    } else if random.one_in(3) {
        leave_noise(random, &mut state);
    }
    state
}

/// A clock value: small, anything, or near 2^62.
pub fn clock(random: &mut Random) -> u64 {
    match random.below(12) {
        0 => CLOCK_LIMIT - random.below(3000),
        1 => CLOCK_LIMIT - random.below(24),
        2 => CLOCK_LIMIT,
        3 if random.one_in(4) => random.pick(&[CLOCK_LIMIT + 1, CLOCK_LIMIT + 23, u64::MAX]),
        4 => random.below(CLOCK_LIMIT),
        5 => 0,
        _ => random.below(100_000),
    }
}

/// No stamp, a young one, or an old one.
fn slot(random: &mut Random, clock: u64) -> u64 {
    match random.below(4) {
        0 | 1 => 0,
        2 => clock.saturating_sub(random.below(10)),
        _ => random.below(clock.saturating_add(1)),
    }
}

/// No alarm, one that is due soon, or one far away.
fn alarm(random: &mut Random, clock: u64) -> u64 {
    match random.below(5) {
        0 | 1 if clock < u64::MAX - 40 => clock + random.between(1, 40),
        2 if clock < u64::MAX => random.pick(&[clock + 1, u64::MAX]),
        _ => 0,
    }
}

/// Registers with places in them.
fn registers(random: &mut Random, scene: &Scene) -> [u16; 16] {
    let mut registers = [0; 16];
    for register in &mut registers {
        *register = if random.one_in(4) {
            random.word()
        } else {
            scene.spot(random)
        };
    }
    registers[PC] = scene.target(random) & 0xFFFE;
    registers[SP] = match random.below(4) {
        0 => random.pick(&[0, 2, 4, 0xFFFE]),
        1 => edge(random, &scene.layout) & 0xFFFE,
        _ => scene.stack,
    };
    let noise = random.word();
    registers[SR] = random.pick(&[0, GIE, GIE, GIE | 2, noise, 0xFFFF]);
    registers[ZERO] = 0;
    registers
}

/// A previous address in any section.
fn previous(random: &mut Random, scene: &Scene) -> u16 {
    match random.below(6) {
        0 => even_inside(random, &scene.layout),
        1 => even_in_data(random, &scene.layout),
        2 => scene.spot(random) & 0xFFFE,
        3 => 0xFFFE,
        _ => scene.main,
    }
}

/// Holds a visit.
fn hold(random: &mut Random, scene: &Scene, state: &mut State) {
    state.held = 1;
    state.saved = registers(random, scene);
    state.saved[SR] |= GIE;
    if !random.one_in(4) {
        state.saved[PC] = even_inside(random, &scene.layout);
    }
    state.held_previous = even_inside(random, &scene.layout);
    state.held_age = random.below(7) as u16;
    if random.one_in(2) {
        state.registers[PC] = scene.service();
        state.previous = 0xFFFE;
    }
}

/// Values that mean nothing where nothing is held.
fn leave_noise(random: &mut Random, state: &mut State) {
    for register in &mut state.saved {
        *register = random.word();
    }
    state.held_previous = random.word();
    state.held_age = random.word();
}

/// The ways to break a frame, in document 01's order; the last two are numbers that only the
/// library's fields can hold.
pub const FAULTS: [&str; 15] = [
    "pc odd",
    "sp odd",
    "previous address odd",
    "r3 not 0",
    "slot stamp above clock",
    "alarm not above clock",
    "held age above 6",
    "held pc odd",
    "held sp odd",
    "held r3 not 0",
    "held GIE clear",
    "held previous address not inside",
    "held previous address odd",
    "halted not 0 or 1",
    "held not 0 or 1",
];

/// Breaks the frame of a state in one way; the state keeps its frame otherwise.
pub fn break_frame(random: &mut Random, scene: &Scene, state: &mut State, fault: usize) {
    if (6..13).contains(&fault) && state.held != 1 {
        hold(random, scene, state);
    }
    match fault {
        0 => state.registers[PC] |= 1,
        1 => state.registers[SP] |= 1,
        2 => state.previous |= 1,
        3 => state.registers[ZERO] = random.between(1, 0xFFFF) as u16,
        4 => state.slot = state.clock.saturating_add(random.between(1, 20)),
        5 => state.alarm = state.clock.saturating_sub(random.below(20)).max(1),
        6 => state.held_age = random.pick(&[7, 7, 8, 255, 256, 262, 0xFFFF]),
        7 => state.saved[PC] |= 1,
        8 => state.saved[SP] |= 1,
        9 => state.saved[ZERO] = random.between(1, 0xFFFF) as u16,
        10 => state.saved[SR] &= !GIE,
        11 => state.held_previous = beyond(random, scene),
        12 => state.held_previous |= 1,
        13 => state.halted = random.pick(&[2, 3, 255, 256, 0xFFFF]),
        _ => state.held = random.pick(&[2, 3, 255, 256, 0xFFFF]),
    }
}

/// An even address not inside, mostly right beside the code section.
fn beyond(random: &mut Random, scene: &Scene) -> u16 {
    let [code_start, code_end, ..] = scene.layout;
    let before = if code_start == 0 {
        0xFFFE
    } else {
        code_start - 2
    };
    random.pick(&[code_end, before, scene.service()])
}
