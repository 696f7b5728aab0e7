//! The static library as a subject, the one that is linked or another one that is loaded.

use crate::programs::World;
use crate::subject::{Answer, Last, Subject};
use crate::words::Pair;
use enclave::raw::{self, Lists, Numbers};
use std::hint::black_box;
use std::path::PathBuf;

/// Where the linked library is, as its crate finds it.
pub fn archive() -> PathBuf {
    let own = concat!(env!("CARGO_MANIFEST_DIR"), "/../../crates/embed/out");
    PathBuf::from(option_env!("ENCLAVE_LIB_DIR").unwrap_or(own)).join("libembed.a")
}

/// The functions that are measured. Each answers 0 or the number of a refusal.
pub trait Exports {
    fn start(&self, machine: &mut Numbers, memory: &[u8]) -> u8;

    fn step(&self, lent: &mut Lent, world: &World, kind: &mut u8, cause: &mut u8) -> u8;

    fn run(&self, lent: &mut Lent, world: &World, budget: u64, end: &mut u8, steps: &mut u64)
        -> u8;

    fn read(&self, pair: Pair, fields: &mut [u16; 4], length: &mut u8) -> u8;
}

/// A machine as the functions take it, and its memory.
pub struct Lent {
    pub machine: Numbers,
    pub memory: Vec<u8>,
}

/// The lists that a call is lent.
pub fn lists(world: &World) -> Lists<'_> {
    Lists {
        stamps: &world.stamps,
        trace_stamps: &world.trace.stamps,
        trace_words: &world.trace.words,
    }
}

/// The functions of the library that is linked.
pub struct Linked;

impl Exports for Linked {
    fn start(&self, machine: &mut Numbers, memory: &[u8]) -> u8 {
        machine.start(memory)
    }

    fn step(&self, lent: &mut Lent, world: &World, kind: &mut u8, cause: &mut u8) -> u8 {
        let Lent { machine, memory } = lent;
        machine.step(memory, &world.layout, lists(world), kind, cause)
    }

    fn run(
        &self,
        lent: &mut Lent,
        world: &World,
        budget: u64,
        end: &mut u8,
        steps: &mut u64,
    ) -> u8 {
        let Lent { machine, memory } = lent;
        let (layout, lists) = (&world.layout, lists(world));
        match world.stop {
            None => machine.run(memory, layout, lists, budget, end, steps),
            Some(stop) => machine.run_to(memory, layout, lists, stop, budget, end, steps),
        }
    }

    fn read(&self, [first, second]: Pair, fields: &mut [u16; 4], length: &mut u8) -> u8 {
        raw::read(first, second, fields, length)
    }
}

/// The number of refusal *word*.
const WORD: u8 = 9;

/// A library by its functions.
pub struct Library<E>(pub E);

impl<E: Exports> Subject for Library<E> {
    type Machine = Lent;

    fn start(&self, world: &World) -> Lent {
        let (mut machine, memory) = (Numbers::default(), world.memory.clone());
        assert_eq!(self.0.start(&mut machine, &memory), 0, "start is taken");
        machine.time[0] = world.clock;
        Lent { machine, memory }
    }

    fn step(&self, lent: &mut Lent, world: &World) {
        let (mut kind, mut cause) = (0, 0);
        let number = self.0.step(lent, world, &mut kind, &mut cause);
        assert_eq!(number, 0, "a step is taken");
    }

    fn run(&self, lent: &mut Lent, world: &World, budget: u64) -> u64 {
        let (mut end, mut steps) = (0, 0);
        let number = self.0.run(lent, world, budget, &mut end, &mut steps);
        assert_eq!(number, 0, "a run is taken");
        steps
    }

    fn last(&self, Lent { machine, memory }: Lent) -> Last {
        Last {
            registers: machine.registers,
            previous: machine.control[0],
            clock: machine.time[0],
            slot: machine.time[1],
            alarm: machine.time[2],
            memory,
        }
    }

    fn read(&self, pair: Pair) {
        let (mut fields, mut length) = ([0; 4], 0);
        black_box(self.0.read(pair, &mut fields, &mut length));
        black_box((&fields, &length));
    }

    fn answer(&self, pair: Pair) -> Option<Answer> {
        let (mut fields, mut length) = ([0; 4], 0);
        let number = self.0.read(pair, &mut fields, &mut length);
        assert!(number == 0 || number == WORD, "read, or no such word");
        (number == 0).then_some(Answer { fields, length })
    }
}
