//! "Callers": start, step and run, with their refusals in number order, but 10
//! right after 3 and 11 right after 5 (reading "refusals"); and the stop
//! address of document 02, request b. A refused call leaves state and memory
//! untouched.

use crate::memory::{Layout, MEMORY_BYTES};
use crate::state::{Machine, PC};
use crate::step::Outcome;
use crate::time::{timetable_valid, trace_valid, Lists, Trace};

/// "Run takes a budget of 0 to 1,000,000 steps."
pub const MOST_STEPS: u64 = 1_000_000;
/// "Clock above 2^62."
pub const CLOCK_LIMIT: u64 = 1 << 62;

/// "A run may carry a stop address": one address, or none.
#[derive(Clone, Copy, Debug, PartialEq, Eq)]
pub enum Stop {
    Never,
    At(u16),
}

/// "Stops at the first of: halted, clock above 2^62, budget spent"; with a stop
/// address "the ends are tested in the order halted, clock, address, spent".
#[derive(Clone, Copy, Debug, PartialEq, Eq)]
pub enum End {
    Halted,
    Clock,
    Address,
    Spent,
}

impl End {
    /// "The run's end (H, S spent, T clock)." No transcript has "address": its
    /// letter is A.
    pub fn letter(&self) -> char {
        match self {
            End::Halted => 'H',
            End::Clock => 'T',
            End::Address => 'A',
            End::Spent => 'S',
        }
    }
}

impl Machine {
    pub fn start(memory: &[u8]) -> Result<Machine, u8> {
        if memory.len() != MEMORY_BYTES {
            return Err(1);
        }
        Ok(Machine::start_state(memory))
    }

    pub fn step(
        &mut self,
        memory: &mut [u8],
        layout: &Layout,
        stamps: &[u64],
        trace: Trace,
    ) -> Result<Outcome, u8> {
        if let Some(number) = self.refusal(memory, layout, stamps, trace, Stop::Never, None) {
            return Err(number);
        }
        Ok(self.one_step(
            memory,
            layout,
            Lists {
                timetable: stamps,
                trace,
            },
        ))
    }

    pub fn run(
        &mut self,
        memory: &mut [u8],
        layout: &Layout,
        stamps: &[u64],
        trace: Trace,
        stop: Stop,
        budget: u64,
    ) -> Result<(End, u64), u8> {
        if let Some(number) = self.refusal(memory, layout, stamps, trace, stop, Some(budget)) {
            return Err(number);
        }
        let lists = Lists {
            timetable: stamps,
            trace,
        };
        let mut steps = 0;
        loop {
            if let Some(end) = self.end(stop, steps, budget) {
                return Ok((end, steps));
            }
            self.one_step(memory, layout, lists);
            steps += 1;
        }
    }

    /// Where a run stops. It ends "before a step whose pc equals" the stop
    /// address, "also before the first step".
    pub(crate) fn end(&self, stop: Stop, steps: u64, budget: u64) -> Option<End> {
        if self.halted {
            Some(End::Halted)
        } else if self.clock > CLOCK_LIMIT {
            Some(End::Clock)
        } else if stop == Stop::At(self.registers[PC]) {
            Some(End::Address)
        } else if steps == budget {
            Some(End::Spent)
        } else {
            None
        }
    }

    /// "A call tests the refusals of what it takes, in number order." "10
    /// "trace" [...], tested right after 3." "11 "landmark" for an odd address,
    /// tested right after 5."
    fn refusal(
        &self,
        memory: &[u8],
        layout: &Layout,
        stamps: &[u64],
        trace: Trace,
        stop: Stop,
        budget: Option<u64>,
    ) -> Option<u8> {
        if memory.len() != MEMORY_BYTES {
            return Some(1);
        }
        if !layout.valid() {
            return Some(2);
        }
        if !timetable_valid(stamps) {
            return Some(3);
        }
        if !trace_valid(trace) {
            return Some(10);
        }
        if !self.frame_valid(layout) {
            return Some(4);
        }
        if budget.is_some_and(|budget| budget > MOST_STEPS) {
            return Some(5);
        }
        if matches!(stop, Stop::At(address) if address % 2 == 1) {
            return Some(11);
        }
        if self.clock > CLOCK_LIMIT {
            return Some(6);
        }
        None
    }
}
