//! A list of calls from the start state, step by step, with what each step was like before and
//! after.

use crate::random::Random;
use crate::subject::{outside, Addresses, Lent, State, Subject, CLOCK_LIMIT, PC};
use crate::watch::fields_at;

/// One step that was made.
pub struct Made {
    pub before: State,
    pub after: State,
    pub kind: u8,
    pub cause: u8,
    /// The row of the instruction at pc, and its destination.
    pub row: Option<usize>,
    pub destination: usize,
    /// Sums over the outside bytes: equal bytes have equal sums.
    pub outside_before: u64,
    pub outside_after: u64,
}

/// What a list of calls did, and the memory that it left.
pub struct Course {
    pub steps: Vec<Made>,
    pub memory: Vec<u8>,
    /// How many calls were runs with a stop address, and how many of them ended there.
    pub runs: u64,
    pub met: u64,
}

/// Where a list of calls stops if the machine does not halt, and the number that its calls are
/// drawn from.
#[derive(Clone, Copy)]
pub struct Bound {
    pub clock: u64,
    pub steps: usize,
    pub calls: u64,
}

/// Step calls from the start state, and runs with a stop address among them, until the machine is
/// halted or a bound is met.
pub fn course(
    machine: &Subject,
    memory: &[u8],
    lent: Lent,
    bound: Bound,
) -> Result<Course, String> {
    let state =
        (machine.start)(memory).map_err(|number| format!("start is refused by {number}"))?;
    let mut list = List {
        machine,
        lent,
        state,
        shadow: memory.to_vec(),
        sum: sum_outside(memory, lent.layout),
        course: Course {
            steps: Vec::new(),
            memory: memory.to_vec(),
            runs: 0,
            met: 0,
        },
    };
    let calls = &mut Random::new(bound.calls, 0);
    while list.state.halted == 0
        && list.state.clock <= bound.clock
        && list.course.steps.len() < bound.steps
    {
        if calls.one_in(8) {
            let stop = list.stop(calls);
            list.run(stop, calls.between(0, 40))?;
        } else {
            list.step()?;
        }
    }
    Ok(list.course)
}

/// A list of calls under way.
struct List<'a> {
    machine: &'a Subject,
    lent: Lent<'a>,
    state: State,
    /// The memory as it was before a step, and the sum over its outside bytes.
    shadow: Vec<u8>,
    sum: u64,
    course: Course,
}

impl List<'_> {
    fn step(&mut self) -> Result<(), String> {
        let (before, outside_before) = (self.state, self.sum);
        let memory = &mut self.course.memory;
        let fields = fields_at(memory, before.registers[PC]);
        let stepped = (self.machine.step)(&mut self.state, memory, self.lent);
        let (kind, cause) =
            stepped.map_err(|number| format!("a step from the start is refused by {number}"))?;
        follow(memory, &mut self.shadow, self.lent.layout, &mut self.sum);
        self.course.steps.push(Made {
            before,
            after: self.state,
            kind,
            cause,
            row: fields.map(|fields| fields[0] as usize),
            destination: fields.map_or(0, |fields| fields[2] as usize),
            outside_before,
            outside_after: self.sum,
        });
        Ok(())
    }

    /// A run with a stop address. Its steps are made one by one and must lead where it went.
    fn run(&mut self, stop: u16, budget: u64) -> Result<(), String> {
        let told = |text: &str| Err(format!("a run to {stop:04X} of at most {budget}: {text}"));
        let (mut state, mut memory) = (self.state, self.course.memory.clone());
        let ran = (self.machine.run_to)(&mut state, &mut memory, self.lent, stop, budget);
        let Ok((end, count)) = ran else {
            return told("refused");
        };
        for _ in 0..count {
            if self.state.registers[PC] == stop {
                return told("a step began there");
            }
            self.step()?;
        }
        if state != self.state || memory != self.course.memory {
            return told("its steps lead elsewhere");
        }
        let halted = state.halted == 1;
        let expected = match state.registers[PC] == stop {
            _ if halted => b'H',
            _ if state.clock > CLOCK_LIMIT => b'T',
            true => b'A',
            false => b'S',
        };
        if end != expected || (end == b'S' && count != budget) || count > budget {
            return told("ended otherwise");
        }
        self.course.runs += 1;
        self.course.met += (end == b'A') as u64;
        Ok(())
    }

    /// An address to stop at: mostly one where a step of the list began.
    fn stop(&self, random: &mut Random) -> u16 {
        let steps = &self.course.steps;
        match random.below(8) {
            0 => self.lent.layout[0],
            1 => self.lent.layout[4],
            2 => random.even(),
            3 => self.state.registers[PC],
            _ if steps.is_empty() => self.state.registers[PC],
            _ => {
                steps[random.below(steps.len() as u64) as usize]
                    .before
                    .registers[PC]
            }
        }
    }
}

/// The share of one byte in the sum.
fn share(address: usize, byte: u8) -> u64 {
    let mut z = (address as u64 * 256 + byte as u64 + 1).wrapping_mul(0x9E37_79B9_7F4A_7C15);
    z = (z ^ (z >> 32)).wrapping_mul(0xD6E8_FEB8_6659_FD93);
    z ^ (z >> 29)
}

fn sum_outside(memory: &[u8], layout: &Addresses) -> u64 {
    let all = memory.iter().enumerate();
    let seen = all.filter(|(address, _)| outside(layout, *address as u16));
    seen.fold(0, |sum, (address, &byte)| {
        sum.wrapping_add(share(address, byte))
    })
}

/// Brings the sum up to date with the bytes that a step changed.
fn follow(memory: &[u8], shadow: &mut [u8], layout: &Addresses, sum: &mut u64) {
    if memory == shadow {
        return;
    }
    for (block, old) in shadow.chunks_mut(256).enumerate() {
        let base = 256 * block;
        let new = &memory[base..base + 256];
        if new == old {
            continue;
        }
        for place in 0..256 {
            if new[place] != old[place] && outside(layout, (base + place) as u16) {
                *sum = sum.wrapping_sub(share(base + place, old[place]));
                *sum = sum.wrapping_add(share(base + place, new[place]));
            }
        }
        old.copy_from_slice(new);
    }
}
