//! The visits of a run to the enclave module, in document 01's words.

use crate::course::Made;
use crate::subject::{inside, outside, Addresses, PC};
use crate::watch::CYCLES;

/// The ways to end.
#[derive(Clone, Copy, Debug, PartialEq, Eq)]
pub enum Way {
    Left,
    OwnReset,
}

/// The end of a visit.
#[derive(Clone, Copy, Debug, PartialEq, Eq)]
pub struct End {
    pub clock: u64,
    pub registers: [u16; 16],
    pub way: Way,
}

/// One visit.
#[derive(Clone, Copy, Debug)]
pub struct Visit {
    pub start: u64,
    pub end: Option<End>,
    /// The cycles of its instructions inside, and of its own reset.
    pub own: u64,
    pub padded: u64,
    pub chained: u64,
    pub plain: u64,
    /// The cycles of service instructions other than RETIs that chain or resume.
    pub service: u64,
}

/// The visits of a run, in the order of their starts.
pub fn visits(steps: &[Made], layout: &Addresses) -> Vec<Visit> {
    let mut visits: Vec<Visit> = Vec::new();
    let mut under_way = false;
    for step in steps {
        let (pc, held) = (step.before.registers[PC], step.before.held == 1);
        // "It ends when a step begins outside with none held."
        if let (true, false, true, Some(visit)) =
            (under_way, held, outside(layout, pc), visits.last_mut())
        {
            visit.end = Some(End {
                clock: step.before.clock,
                registers: step.before.registers,
                way: Way::Left,
            });
            under_way = false;
        }
        // "A visit starts, none being held, with a step at the entry whose previous address isn't
        // inside."
        if !held && pc == layout[0] && !inside(layout, step.before.previous) {
            visits.push(new_visit(step.before.clock));
            under_way = true;
        }
        if let (true, Some(visit)) = (under_way, visits.last_mut()) {
            under_way = if held {
                serve(visit, step)
            } else {
                walk(visit, step)
            };
        }
    }
    visits
}

fn new_visit(start: u64) -> Visit {
    Visit {
        start,
        end: None,
        own: 0,
        padded: 0,
        chained: 0,
        plain: 0,
        service: 0,
    }
}

/// The cycles of a step's instruction.
pub fn cycles(step: &Made) -> u64 {
    step.row.map_or(0, |row| CYCLES[row])
}

/// A step with none held. The answer: whether the visit goes on.
fn walk(visit: &mut Visit, step: &Made) -> bool {
    if step.kind == b'X' {
        // "By its own reset: one with none held and pc in code or data, its 4 cycles counted as
        // own."
        visit.own += 4;
        visit.end = Some(End {
            clock: step.after.clock,
            registers: step.after.registers,
            way: Way::OwnReset,
        });
        return false;
    }
    visit.own += cycles(step);
    visit.padded += (step.kind == b'P') as u64;
    true
}

/// A step with the visit held. The answer: whether the visit goes on; one dropped or halted has
/// not ended.
fn serve(visit: &mut Visit, step: &Made) -> bool {
    match step.kind {
        b'X' | b'H' => return false,
        b'P' => visit.padded += 1,
        b'C' => visit.chained += 1,
        b'B' => {}
        b'I' => {
            visit.plain += 1;
            visit.service += cycles(step);
        }
        _ => visit.service += cycles(step),
    }
    true
}
