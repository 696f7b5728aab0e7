//! "Clock, requests, device": clock, timetable, pending slot, alarm; and the
//! ride trace of document 02, request a.

use crate::state::Machine;

/// "At most 4,096, strictly rising, each 1 to 2^62."
pub const MOST_STAMPS: usize = 4096;
pub const LAST_STAMP: u64 = 1 << 62;

/// A ride trace as a caller lends it, untested: a record is a stamp with the
/// word at its place. "An empty trace gives the old machine."
#[derive(Clone, Copy, Debug)]
pub struct Trace<'a> {
    pub stamps: &'a [u64],
    pub words: &'a [u16],
}

pub const NO_TRACE: Trace = Trace {
    stamps: &[],
    words: &[],
};

/// What the requests of a call come from, beside the alarm.
#[derive(Clone, Copy)]
pub(crate) struct Lists<'a> {
    pub timetable: &'a [u64],
    pub trace: Trace<'a>,
}

/// The rule of the timetable: "at most 4,096, strictly rising, each 1 to
/// 2^62". The trace's stamps have the same: "at most 4,096, stamps strictly
/// rising from 1 to 2^62".
pub fn timetable_valid(stamps: &[u64]) -> bool {
    stamps.len() <= MOST_STAMPS
        && stamps
            .iter()
            .all(|&stamp| 1 <= stamp && stamp <= LAST_STAMP)
        && stamps.windows(2).all(|pair| pair[0] < pair[1])
}

/// Refusal 10: "for too many, out of range, not rising, or stamps and words
/// not equally many".
pub fn trace_valid(trace: Trace) -> bool {
    trace.stamps.len() == trace.words.len() && timetable_valid(trace.stamps)
}

impl Machine {
    /// Cycles pass. "A request with stamp s happens while the clock passes
    /// from a to b if a < s and s is at most b. The pending slot, if empty,
    /// takes the earliest stamp that happens; if filled, later ones merge into
    /// it." "Each record's stamp is also a request; one that equals a
    /// timetable stamp counts once." "The alarm is a request too and clears
    /// when it happens."
    pub(crate) fn pass(&mut self, cycles: u64, lists: Lists) {
        let a = self.clock;
        let b = a + cycles;
        let happens = |s: &u64| a < *s && *s <= b;
        let mut earliest = lists.timetable.iter().copied().find(happens);
        if let Some(s) = lists.trace.stamps.iter().copied().find(happens) {
            earliest = Some(earliest.map_or(s, |listed| listed.min(s)));
        }
        if let Some(s) = self.alarm {
            if a < s && s <= b {
                self.alarm = None;
                earliest = Some(match earliest {
                    Some(other) => other.min(s),
                    None => s,
                });
            }
        }
        if self.slot.is_none() {
            self.slot = earliest;
        }
        self.clock = b;
    }

    /// What IN gives at the instruction's start: without a trace "the clock's
    /// low 16 bits"; with one "the word of the last record whose stamp is at
    /// most the clock", and "0 before the first".
    pub(crate) fn device_word(&self, lists: Lists) -> u16 {
        if lists.trace.stamps.is_empty() {
            return (self.clock % 65_536) as u16;
        }
        let mut word = 0;
        for (&stamp, &recorded) in lists.trace.stamps.iter().zip(lists.trace.words) {
            if stamp <= self.clock {
                word = recorded;
            }
        }
        word
    }

    /// "OUT of w, after its cycles, sets the one alarm to clock + w, replacing
    /// any; w = 0 clears it."
    pub(crate) fn set_alarm(&mut self, w: u16) {
        self.alarm = if w == 0 {
            None
        } else {
            Some(self.clock + w as u64)
        };
    }
}
