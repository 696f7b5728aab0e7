//! Stop addresses of runs: most are ones that the run will come to, some never met, some odd.

use crate::random::Random;
use crate::scene::Scene;
use crate::subject::{word_at, Lent, State, Subject, PC};

/// A place that is known only when its call comes.
#[derive(Clone, Copy, Debug)]
enum Place {
    /// Where the machine is after so many steps, or where it is stuck before.
    Ahead(u64),
    /// The word after the one at pc.
    NextWord,
    Service,
    Entry,
    /// Where a reset goes.
    Vector,
    At(u16),
}

/// A stop address: its place, and whether its bit 0 is set.
#[derive(Clone, Copy, Debug)]
pub struct Aim {
    place: Place,
    pub odd: bool,
}

impl Aim {
    /// The address of pc, where a call before it has stopped.
    pub const HERE: Aim = Aim {
        place: Place::Ahead(0),
        odd: false,
    };

    /// An aim, and the budget of a run to it.
    pub fn new(random: &mut Random, scene: &Scene) -> (Aim, u64) {
        let place = place(random, scene);
        let budget = match place {
            Place::Ahead(steps) => budget_for(random, steps),
            _ => budget(random),
        };
        let odd = random.one_in(8);
        (Aim { place, odd }, budget)
    }

    /// The stop address of a run from a state.
    pub fn address(self, machine: &Subject, state: &State, memory: &[u8], lent: Lent) -> u16 {
        let address = match self.place {
            Place::Ahead(steps) => ahead(machine, state, memory, lent, steps),
            Place::NextWord => state.registers[PC].wrapping_add(2),
            Place::Service => lent.layout[4],
            Place::Entry => lent.layout[0],
            Place::Vector => word_at(memory, 0xFFFE),
            Place::At(address) => address,
        };
        (address & 0xFFFE) | self.odd as u16
    }
}

fn place(random: &mut Random, scene: &Scene) -> Place {
    match random.below(16) {
        0..=6 => Place::Ahead(random.below(24)),
        7 => Place::Ahead(random.between(24, 400)),
        8 => Place::Ahead(0),
        9 => Place::NextWord,
        10 | 11 => Place::Service,
        12 => Place::Entry,
        13 => Place::Vector,
        14 => Place::At(random.pick(&[0, 2, 0xFFFC, 0xFFFE])),
        _ => Place::At(scene.spot(random)),
    }
}

/// A budget beside the number of steps to an address: just enough, one too few, one more, any.
fn budget_for(random: &mut Random, steps: u64) -> u64 {
    match random.below(6) {
        0 | 1 => steps,
        2 => steps.saturating_sub(1),
        3 => steps + 1,
        4 => steps + random.between(2, 60),
        _ => budget(random),
    }
}

/// The budget of a run: small, some hundreds, at the edges, some too large.
pub fn budget(random: &mut Random) -> u64 {
    match random.below(16) {
        0 => 0,
        1 => 1,
        2 if random.one_in(200) => 1_000_000,
        3 => random.pick(&[1_000_001, 1_000_001, u64::MAX, 1 << 32]),
        4 => random.between(100, 1200),
        _ => random.between(2, 40),
    }
}

/// The pc after so many steps, or where the machine is halted or refused before.
fn ahead(machine: &Subject, state: &State, memory: &[u8], lent: Lent, steps: u64) -> u16 {
    let (mut state, mut memory) = (*state, memory.to_vec());
    for _ in 0..steps {
        if state.halted == 1 || (machine.step)(&mut state, &mut memory, lent).is_err() {
            break;
        }
    }
    state.registers[PC]
}
