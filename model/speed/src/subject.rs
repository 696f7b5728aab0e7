//! What is measured: it starts machines, each on a memory of its own, steps and runs them, and reads instruction words.

use crate::programs::World;
use crate::words::Pair;

/// What all sides must agree on after the same work.
#[derive(Clone, Debug, PartialEq, Eq)]
pub struct Last {
    pub registers: [u16; 16],
    pub previous: u16,
    pub clock: u64,
    pub slot: u64,
    pub alarm: u64,
    pub memory: Vec<u8>,
}

/// The instruction that two words begin with, as row, source, destination and constant, and its length.
#[derive(Clone, Copy, Debug, PartialEq, Eq)]
pub struct Answer {
    pub fields: [u16; 4],
    pub length: u8,
}

pub trait Subject {
    type Machine;

    /// The start state of the world's memory, at the world's clock.
    fn start(&self, world: &World) -> Self::Machine;

    /// One step call.
    fn step(&self, machine: &mut Self::Machine, world: &World);

    /// One run call, to the world's stop address if it has one; the number of its steps.
    fn run(&self, machine: &mut Self::Machine, world: &World, budget: u64) -> u64;

    /// What it ended in.
    fn last(&self, machine: Self::Machine) -> Last;

    /// One read call, whose answer nobody looks at.
    fn read(&self, pair: Pair);

    /// What it answers; none where it is refused.
    fn answer(&self, pair: Pair) -> Option<Answer>;
}
