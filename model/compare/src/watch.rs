//! Tells which events a compared step met, from what was before it and after it.

use crate::counts::{Counts, Event};
use crate::library::LIBRARY;
use crate::subject::{in_data, inside, outside, word_at, Lent, State, CLOCK_LIMIT, PC, SP};
use crate::world::World;

/// The cycles of each row of the table of instruction words.
pub const CYCLES: [u64; 16] = [1, 2, 2, 2, 5, 1, 2, 1, 2, 4, 2, 1, 1, 1, 1, 2];

/// IN's row.
pub const IN: usize = 1;

/// Row, source, destination and constant at an address, if an instruction stands there.
pub fn fields_at(memory: &[u8], address: u16) -> Option<[u16; 4]> {
    let (first, second) = (
        word_at(memory, address),
        word_at(memory, address.wrapping_add(2)),
    );
    (LIBRARY.read)(first, second).ok().map(|(fields, _)| fields)
}

/// What was before a step.
pub struct Before<'a> {
    state: State,
    lent: Lent<'a>,
    row: Option<usize>,
}

impl Before<'_> {
    pub fn new<'a>(state: &State, memory: &[u8], lent: Lent<'a>) -> Before<'a> {
        Before {
            state: *state,
            lent,
            row: fields_at(memory, state.registers[PC]).map(|fields| fields[0] as usize),
        }
    }

    /// Counts what the step met. "A step of a running machine adds 1 to 23 cycles."
    pub fn watch(
        &self,
        after: &State,
        kind: u8,
        cause: u8,
        counts: &mut Counts,
    ) -> Result<(), String> {
        if self.state.halted == 1 {
            counts.event(Event::HaltedAlready);
            return Ok(());
        }
        let cycles = after.clock - self.state.clock;
        if !(1..=23).contains(&cycles) {
            return Err(format!("a step added {cycles} cycles"));
        }
        counts.event(Event::CyclesLaw);
        match kind {
            b'P' => self.padded(after, counts),
            b'I' => self.plain(counts),
            b'X' => self.reset(cycles, cause, counts),
            _ => {}
        }
        self.others(after, kind, counts);
        self.records(after, kind, counts);
        Ok(())
    }

    /// What the step had to do with the trace.
    fn records(&self, after: &State, kind: u8, counts: &mut Counts) {
        let records = self.lent.records;
        counts.events(Event::FullTrace, (records.stamps.len() == 4096) as u64);
        if self.row == Some(IN) && kind != b'X' {
            self.word(counts);
        }
        if self.state.slot == 0 {
            self.served(after, kind, counts);
        }
        let (from, to) = (
            records.passed(self.state.clock),
            records.passed(after.clock),
        );
        let listed = |stamp: &&u64| self.lent.stamps.binary_search(stamp).is_ok();
        if records.stamps[from..to].iter().any(|stamp| listed(&stamp)) {
            counts.event(Event::RecordAtStamp);
        }
        if kind == b'X' && records.passed(after.clock - 4) < to {
            counts.event(Event::RecordLost);
        }
    }

    /// Where IN's word came from.
    fn word(&self, counts: &mut Counts) {
        let (stamps, clock) = (self.lent.records.stamps, self.state.clock);
        let passed = self.lent.records.passed(clock);
        counts.event(match passed {
            _ if stamps.is_empty() => Event::InClock,
            0 => Event::InBefore,
            all if all == stamps.len() => Event::InLast,
            _ => Event::InBetween,
        });
        if stamps[..passed].last() == Some(&clock) {
            counts.event(Event::InAtRecord);
        }
        if stamps
            .get(passed)
            .is_some_and(|&stamp| stamp <= clock + CYCLES[IN])
        {
            counts.event(Event::InDue);
        }
    }

    /// Whether the request that is served is a record and nothing else: the slot was empty, and
    /// takes the earliest.
    fn served(&self, after: &State, kind: u8, counts: &mut Counts) {
        let first = self.lent.first_stamp(self.state.clock, after.clock);
        let Some(stamp) = first.filter(|&stamp| stamp != self.state.alarm) else {
            return;
        };
        let alarm = (self.state.clock + 1..stamp).contains(&self.state.alarm);
        let listed = self.lent.stamps.binary_search(&stamp).is_ok();
        if alarm || listed {
            return;
        }
        match (kind, self.state.held) {
            (b'I', _) => counts.event(Event::RecordPlain),
            (b'P', 0) => counts.event(Event::RecordPadded),
            (b'P', _) => counts.event(Event::RecordReturned),
            (b'C', _) => counts.event(Event::RecordChained),
            _ => {}
        }
    }

    fn padded(&self, after: &State, counts: &mut Counts) {
        if self.state.held == 1 {
            counts.event(Event::PaddedAfterReturn);
        }
        // The wait before the slot empties.
        let (from, to) = (after.clock - 12 + after.held_age as u64, after.clock - 6);
        if self
            .lent
            .stamps
            .iter()
            .any(|&stamp| from < stamp && stamp <= to)
        {
            counts.event(Event::Merged);
        }
        let records = self.lent.records;
        if records.passed(from) < records.passed(to) {
            counts.event(Event::RecordMerged);
        }
        if after.slot != 0 {
            counts.event(Event::PendingAtService);
        }
        if self.state.slot != 0 && after.held_age == 6 && from > self.state.slot + 6 {
            counts.event(Event::AgeCapped);
        }
    }

    fn plain(&self, counts: &mut Counts) {
        if self.state.held == 1 {
            counts.event(Event::Nested);
        }
        if self.state.registers[SP] < 4 {
            counts.event(Event::Wrapped);
        }
    }

    fn reset(&self, cycles: u64, cause: u8, counts: &mut Counts) {
        if cycles > 4 && cause == 8 {
            counts.event(Event::BarredStack);
        }
        if self.state.held == 1 {
            counts.event(Event::DroppedVisit);
        } else if !outside(self.lent.layout, self.state.registers[PC]) {
            counts.event(Event::OwnReset);
        }
    }

    fn others(&self, after: &State, kind: u8, counts: &mut Counts) {
        let (layout, pc) = (self.lent.layout, self.state.registers[PC]);
        if let (Some(row), true) = (self.row, kind != b'X') {
            counts.row(row, inside(layout, pc));
        }
        let due = self.state.clock < self.state.alarm && self.state.alarm <= after.clock;
        if due && self.row != Some(2) {
            counts.event(Event::Alarm);
        }
        if pc == layout[0] && self.state.held == 0 && !inside(layout, self.state.previous) {
            counts.event(Event::Entered);
        }
        if in_data(layout, self.state.previous) {
            counts.event(Event::PreviousInData);
        }
        if after.clock > CLOCK_LIMIT - 3000 {
            counts.event(Event::NearLimit);
        }
    }
}

/// Counts what is special about a world's layout.
pub fn layout(world: &World, counts: &mut Counts) {
    let [code_start, code_end, data_start, data_end, service] = world.scene.layout;
    if code_start.min(data_start) == 0 && code_end.max(data_end) == 0xFFFE {
        counts.event(Event::BothEnds);
    }
    if code_end == data_start || data_end == code_start {
        counts.event(Event::Touching);
    }
    let before = [code_start.wrapping_sub(2), data_start.wrapping_sub(2)];
    if [code_end, data_end].contains(&service) || before.contains(&service) {
        counts.event(Event::ServiceBeside);
    }
    if service == 0xFFFE {
        counts.event(Event::ServiceLast);
    }
}
