//! Every first word executed, outside and inside, by a step and by a run. In worlds most words are
//! instructions, and few of the others are close to one.

use crate::counts::{Counts, Event};
use crate::drive::Sides;
use crate::first_words::BY_LENGTH;
use crate::random::Random;
use crate::subject::{
    put_word, Addresses, Lent, Records, State, Subject, MEMORY_BYTES, PC, SP, ZERO,
};
use std::fmt::Debug;

const LAYOUT: Addresses = [0x8000, 0x8008, 0x8100, 0x8104, 0x4500];

/// No stamp and no record.
const LENT: Lent = Lent {
    layout: &LAYOUT,
    stamps: &[],
    records: Records {
        stamps: &[],
        words: &[],
    },
};

/// Where a first word stands, outside or at the entry, and its second word.
const CASES: [(u16, u16); 4] = [
    (0x4400, 0x0000),
    (0x4400, 0xFFFF),
    (0x8000, 0x0000),
    (0x8000, 0xFFFF),
];

/// Executes every first word. By the library's own steps as many begin no instruction as should.
pub fn all(sides: Sides, random: &mut Random, counts: &mut Counts) -> Result<(), String> {
    let memories = [vec![0; MEMORY_BYTES], vec![0; MEMORY_BYTES]];
    let mut both = Both { sides, memories };
    let mut none = 0;
    for first in 0..=0xFFFF {
        let begins = both
            .begins(first, random)
            .map_err(|text| format!("first word {first:04X}: {text}"))?;
        none += !begins as u64;
    }
    let calls = 0x10000 * 2 * CASES.len() as u64;
    counts.calls += calls;
    counts.events(Event::WordExecuted, calls);
    counts.events(Event::NoWordExecuted, none);
    if none != BY_LENGTH[0] {
        return Err(format!("{none} first words begin no instruction"));
    }
    Ok(())
}

/// A state at a place, come from outside. Registers hold addresses in the data, small numbers, or
/// anything.
fn state(random: &mut Random, place: u16) -> State {
    let mut state = State::filled(0);
    state.registers = [(); 16].map(|_| match random.below(4) {
        0 => random.word(),
        1 => random.below(4) as u16,
        _ => LAYOUT[2] + random.below(4) as u16,
    });
    state.registers[PC] = place;
    state.registers[SP] &= 0xFFFE;
    state.registers[ZERO] = 0;
    state.previous = 0xFFFE;
    state
}

/// Both sides, each with its memory.
struct Both {
    sides: Sides,
    memories: [Vec<u8>; 2],
}

impl Both {
    /// Whether a first word begins an instruction: where it does not, each step resets by 3.
    fn begins(&mut self, first: u16, random: &mut Random) -> Result<bool, String> {
        let mut begun = 0;
        for (place, second) in CASES {
            let (state, budget) = (state(random, place), random.between(1, 3));
            self.put(place, [first, second]);
            self.call(&state, |subject, state, memory| {
                (subject.run)(state, memory, LENT, budget)
            })?;
            self.put(place, [first, second]);
            let (_, cause) = self.call(&state, |subject, state, memory| {
                (subject.step)(state, memory, LENT)
            })?;
            begun += (cause != 3) as usize;
        }
        if self.memories[0] != self.memories[1] {
            return Err("the memories differ".into());
        }
        if ![0, CASES.len()].contains(&begun) {
            return Err(format!("begins an instruction in {begun} cases"));
        }
        Ok(begun > 0)
    }

    /// Puts two words into both memories.
    fn put(&mut self, place: u16, words: [u16; 2]) {
        for memory in &mut self.memories {
            put_word(memory, place, words[0]);
            put_word(memory, place + 2, words[1]);
        }
    }

    /// A call on both sides from one state: the same answer, and the same state after it.
    fn call<T: PartialEq + Debug>(
        &mut self,
        before: &State,
        call: impl Fn(&Subject, &mut State, &mut [u8]) -> Result<T, u8>,
    ) -> Result<T, String> {
        let [library_memory, model_memory] = &mut self.memories;
        let (mut library_state, mut model_state) = (*before, *before);
        let library = call(self.sides.library, &mut library_state, library_memory);
        let model = call(self.sides.model, &mut model_state, model_memory);
        if (&library, library_state) != (&model, model_state) {
            return Err(format!(
                "library {library:?}, {library_state:?}\n  model {model:?}, {model_state:?}\n  from {before:?}"
            ));
        }
        library.map_err(|number| format!("refused by {number}"))
    }
}
