//! Tells which events a compared run with a stop address met.

use crate::counts::{Counts, Event};
use crate::subject::{in_data, inside, Addresses, State, CLOCK_LIMIT, PC};

/// The refusals that come before 11, in the order of their tests.
pub const BEFORE: [u8; 6] = [1, 2, 3, 10, 4, 5];

/// A run with a stop address: what it was asked, and from where.
pub struct Landmark<'a> {
    pub layout: &'a Addresses,
    pub stop: u16,
    pub budget: u64,
    pub before: &'a State,
}

impl Landmark<'_> {
    /// Counts what a refused run had to do with its stop address.
    pub fn refused(&self, number: u8, counts: &mut Counts) {
        if self.stop % 2 == 0 {
            return;
        }
        if let Some(place) = BEFORE.iter().position(|&before| before == number) {
            counts.before_landmark(place);
        }
        if number == 11 {
            counts.events(Event::OddHalted, (self.before.halted == 1) as u64);
            counts.events(Event::OddLate, (self.before.clock > CLOCK_LIMIT) as u64);
        }
    }

    /// Counts how a run ended.
    pub fn ended(&self, after: &State, end: u8, steps: u64, counts: &mut Counts) {
        let there = after.registers[PC] == self.stop;
        match end {
            b'A' => self.met(after, steps, counts),
            b'H' if there => counts.event(Event::HaltedThere),
            b'T' if there => counts.event(Event::ClockThere),
            _ => counts.event(Event::NeverMet),
        }
        counts.events(
            Event::StepToHalt,
            (end == b'H' && there && steps > 0) as u64,
        );
    }

    /// Where it stopped.
    fn met(&self, after: &State, steps: u64, counts: &mut Counts) {
        let at_once = steps == 0;
        counts.event(Event::Met);
        counts.events(Event::MetAtOnce, at_once as u64);
        counts.events(Event::MetWithout, (self.budget == 0) as u64);
        counts.events(Event::MetAsSpent, (!at_once && steps == self.budget) as u64);
        counts.events(Event::MetInside, inside(self.layout, self.stop) as u64);
        counts.events(Event::MetInData, in_data(self.layout, self.stop) as u64);
        counts.events(Event::MetAtZero, (self.stop == 0) as u64);
        counts.events(Event::MetAtLimit, (after.clock == CLOCK_LIMIT) as u64);
        if at_once || after.previous != 0xFFFE {
            return;
        }
        // A reset leaves nothing but pc; a service starts at its address.
        let nothing = after.registers[1..].iter().all(|&word| word == 0);
        let service = self.stop == self.layout[4];
        match after.held {
            0 if nothing && after.slot == 0 => counts.event(Event::MetAfterReset),
            0 if service => counts.event(Event::MetInPlain),
            1 if service && nothing => counts.event(Event::MetInPadded),
            _ => {}
        }
    }
}
