//! The model as a subject.

use crate::programs::World;
use crate::subject::{Answer, Last, Subject};
use crate::words::Pair;
use model::{Layout, Machine, Stop, Trace};
use std::hint::black_box;

pub struct Modelled;

/// A machine of the model, and what it is lent.
pub struct Lent {
    machine: Machine,
    layout: Layout,
    memory: Vec<u8>,
}

/// The model's form of a trace.
fn trace(world: &World) -> Trace<'_> {
    Trace {
        stamps: &world.trace.stamps,
        words: &world.trace.words,
    }
}

/// What the model reads, in the library's numbers.
pub fn read([first, second]: Pair) -> Option<Answer> {
    let (instruction, length) = model::decode(first, second)?;
    let (row, s, d, constant) = model::parts(&instruction);
    let fields = [row, s.into(), d.into(), constant];
    Some(Answer { fields, length })
}

impl Subject for Modelled {
    type Machine = Lent;

    fn start(&self, world: &World) -> Lent {
        let mut machine = Machine::start(&world.memory).expect("start is taken");
        machine.clock = world.clock;
        Lent {
            machine,
            layout: Layout::from(world.layout),
            memory: world.memory.clone(),
        }
    }

    fn step(&self, lent: &mut Lent, world: &World) {
        lent.machine
            .step(&mut lent.memory, &lent.layout, &world.stamps, trace(world))
            .expect("a step is taken");
    }

    /// Without a stop address, also where the world has one: an address that is never met changes nothing.
    fn run(&self, lent: &mut Lent, world: &World, budget: u64) -> u64 {
        lent.machine
            .run(
                &mut lent.memory,
                &lent.layout,
                &world.stamps,
                trace(world),
                Stop::Never,
                budget,
            )
            .expect("a run is taken")
            .1
    }

    fn last(
        &self,
        Lent {
            machine, memory, ..
        }: Lent,
    ) -> Last {
        Last {
            registers: machine.registers,
            previous: machine.previous,
            clock: machine.clock,
            slot: machine.slot.unwrap_or(0),
            alarm: machine.alarm.unwrap_or(0),
            memory,
        }
    }

    fn read(&self, [first, second]: Pair) {
        black_box(model::decode(first, second));
    }

    fn answer(&self, pair: Pair) -> Option<Answer> {
        read(pair)
    }
}
