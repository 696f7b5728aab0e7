//! Document 01's laws, tried on runs from the start state.

use crate::counts::{Counts, Event};
use crate::course::{Course, Made};
use crate::subject::{inside, Lent, Subject, PC};
use crate::visits::{cycles, visits};
use crate::watch::IN;

/// RETI's row.
const RETI: usize = 4;

/// Every law on a run that was made from a memory.
pub fn laws(
    machine: &Subject,
    memory: &[u8],
    lent: Lent,
    course: &Course,
    counts: &mut Counts,
) -> Result<(), String> {
    for (number, step) in course.steps.iter().enumerate() {
        step_laws(step, lent, counts).map_err(|text| format!("step {}: {text}", number + 1))?;
    }
    durations(course, lent, counts)?;
    lands(machine, memory, lent, course)?;
    counts.event(Event::RunLaw);
    landmarks(machine, memory, lent, course, counts)?;
    once(machine, memory, lent, course, counts)
}

fn step_laws(step: &Made, lent: Lent, counts: &mut Counts) -> Result<(), String> {
    let passed = step.after.clock.wrapping_sub(step.before.clock);
    if !(1..=23).contains(&passed) {
        return Err(format!("added {passed} cycles"));
    }
    counts.event(Event::CyclesLaw);
    if step.before.allowed() && step.before.slot != 0 {
        return Err("GIE is set and the slot filled at the start of a step".into());
    }
    word(step, lent, counts)?;
    twelve_inside(step, lent, counts)?;
    twelve_returning(step, lent, counts)
}

/// IN gives the word of the last record whose stamp is at most the clock at its start, 0 before the
/// first, and the clock's low 16 bits where there is no record.
fn word(step: &Made, lent: Lent, counts: &mut Counts) -> Result<(), String> {
    let ran = step.kind == b'R' || step.kind == b'I';
    // The first four registers do not keep what is written to them, or not through an interrupt.
    if step.row != Some(IN) || !ran || step.destination < 4 {
        return Ok(());
    }
    let (clock, records) = (step.before.clock, lent.records);
    let expected = match records.passed(clock) {
        _ if records.stamps.is_empty() => clock as u16,
        0 => 0,
        passed => records.words[passed - 1],
    };
    let got = step.after.registers[step.destination];
    if got != expected {
        return Err(format!(
            "IN at {clock} gave {got:04X}, and not {expected:04X}"
        ));
    }
    counts.events(Event::WordLaw, !records.stamps.is_empty() as u64);
    Ok(())
}

/// The first request in a stretch of the clock: above `from`, at most `to`.
fn first_request(step: &Made, lent: Lent, from: u64, to: u64) -> Option<u64> {
    let alarm = Some(step.before.alarm).filter(|&alarm| from < alarm && alarm <= to);
    let requests = [lent.first_stamp(from, to), alarm];
    requests.into_iter().flatten().min()
}

/// Counts a request that is served after twelve cycles.
fn count_twelve(event: Event, request: Option<u64>, lent: Lent, counts: &mut Counts) {
    let Some(stamp) = request else {
        return;
    };
    counts.event(event);
    if lent.records.stamps.binary_search(&stamp).is_ok() {
        counts.event(Event::TwelveRecord);
    }
}

/// A request in an instruction inside, GIE set: service exactly 12 cycles after its stamp.
fn twelve_inside(step: &Made, lent: Lent, counts: &mut Counts) -> Result<(), String> {
    let ran = step.kind != b'X' && step.before.held == 0;
    if !ran || !inside(lent.layout, step.before.registers[PC]) || !step.before.allowed() {
        return Ok(());
    }
    let from = step.before.clock;
    let request = first_request(step, lent, from, from + cycles(step));
    let expected = match request {
        Some(stamp) => (b'P', stamp + 12),
        None => (b'R', from + cycles(step)),
    };
    count_twelve(Event::TwelveLaw, request, lent, counts);
    same_service(step, expected)
}

/// A request in the return padding: service exactly 12 cycles after its stamp.
fn twelve_returning(step: &Made, lent: Lent, counts: &mut Counts) -> Result<(), String> {
    let returns = step.before.held == 1 && step.row == Some(RETI);
    if !returns || step.kind == b'X' || step.kind == b'C' {
        return Ok(());
    }
    let from = step.before.clock + 5;
    let to = from + step.before.held_age as u64;
    let request = first_request(step, lent, from, to);
    let expected = match request {
        Some(stamp) => (b'P', stamp + 12),
        None => (b'B', to),
    };
    count_twelve(Event::TwelveAfterReturn, request, lent, counts);
    same_service(step, expected)
}

fn same_service(step: &Made, expected: (u8, u64)) -> Result<(), String> {
    let got = (step.kind, step.after.clock);
    if got != expected {
        let letter = |kind: u8| kind as char;
        return Err(format!(
            "{} at {}, by the twelve-cycle law {} at {}",
            letter(got.0),
            got.1,
            letter(expected.0),
            expected.1
        ));
    }
    Ok(())
}

/// "An ended visit lasted its own instruction cycles, plus 17 per padded interrupt, 11 per
/// chained, 6 per plain one meanwhile, plus service instructions other than RETIs that chain or
/// resume."
fn durations(course: &Course, lent: Lent, counts: &mut Counts) -> Result<(), String> {
    for visit in visits(&course.steps, lent.layout) {
        let Some(end) = visit.end else {
            continue;
        };
        let interrupts = 17 * visit.padded + 11 * visit.chained + 6 * visit.plain;
        if end.clock - visit.start != visit.own + interrupts + visit.service {
            return Err(format!("the duration law does not hold of {visit:?}"));
        }
        counts.event(Event::DurationLaw);
    }
    Ok(())
}

/// A run of as many steps lands where the steps land.
fn lands(machine: &Subject, memory: &[u8], lent: Lent, course: &Course) -> Result<(), String> {
    let mut memory = memory.to_vec();
    let mut state =
        (machine.start)(&memory).map_err(|number| format!("start is refused by {number}"))?;
    let count = course.steps.len() as u64;
    let (_, steps) = (machine.run)(&mut state, &mut memory, lent, count)
        .map_err(|number| format!("run: {number}"))?;
    let landed = course.steps.last().map_or(state, |step| step.after);
    if steps != count || state != landed || memory != course.memory {
        return Err(format!(
            "a run of {count} made {steps} and landed at {state:?}, the steps at {landed:?}"
        ));
    }
    Ok(())
}

/// Runs to some addresses, and on from there.
fn landmarks(
    machine: &Subject,
    memory: &[u8],
    lent: Lent,
    course: &Course,
    counts: &mut Counts,
) -> Result<(), String> {
    let Some(last) = course.steps.last() else {
        return Ok(());
    };
    let mut pcs: Vec<u16> = course.steps.iter().map(at).collect();
    pcs.push(last.after.registers[PC]);
    let count = pcs.len() - 1;
    let stops = [pcs[0], pcs[count / 3], pcs[2 * count / 3], pcs[count]];
    for stop in stops.into_iter().chain([lent.layout[0], lent.layout[4]]) {
        let steps = pcs.iter().position(|&pc| pc == stop).unwrap_or(count);
        let end = match pcs[steps] == stop {
            _ if steps == count && last.after.halted == 1 => b'H',
            true => b'A',
            false => b'S',
        };
        // As many steps as without it, and just enough.
        for budget in [count, steps] {
            to_and_on(machine, memory, lent, course, (stop, budget as u64))
                .and_then(|ran| same_end(ran, (end, steps as u64)))
                .map_err(|text| format!("a run to {stop:04X} of at most {budget}: {text}"))?;
        }
        counts.events(Event::StopLaw, (end == b'A') as u64);
    }
    Ok(())
}

/// Where a step began.
fn at(step: &Made) -> u16 {
    step.before.registers[PC]
}

fn same_end(got: (u8, u64), expected: (u8, u64)) -> Result<(), String> {
    if got == expected {
        return Ok(());
    }
    let [one, other] = [got, expected].map(|(end, steps)| format!("{} {steps}", end as char));
    Err(format!("{one}, by the steps {other}"))
}

/// A run to an address from the start, and on without one: together they are the run without it.
/// The answer is the first one's.
fn to_and_on(
    machine: &Subject,
    memory: &[u8],
    lent: Lent,
    course: &Course,
    (stop, budget): (u16, u64),
) -> Result<(u8, u64), String> {
    let mut memory = memory.to_vec();
    let refused = |number: u8| format!("refused by {number}");
    let mut state = (machine.start)(&memory).map_err(refused)?;
    let ran = (machine.run_to)(&mut state, &mut memory, lent, stop, budget).map_err(refused)?;
    let left = (course.steps.len() as u64).saturating_sub(ran.1);
    (machine.run)(&mut state, &mut memory, lent, left).map_err(refused)?;
    let landed = course.steps.last().map_or(state, |step| step.after);
    if state != landed || memory != course.memory {
        return Err(format!(
            "it and what is left land at {state:?}, the steps at {landed:?}"
        ));
    }
    Ok(ran)
}

/// "One that equals a timetable stamp counts once": with the stamps of all records put into the
/// timetable the run lands where it did.
fn once(
    machine: &Subject,
    memory: &[u8],
    lent: Lent,
    course: &Course,
    counts: &mut Counts,
) -> Result<(), String> {
    let mut stamps = [lent.stamps, lent.records.stamps].concat();
    stamps.sort_unstable();
    stamps.dedup();
    if lent.records.stamps.is_empty() || stamps.len() > 4096 {
        return Ok(());
    }
    let listed = Lent {
        stamps: &stamps,
        ..lent
    };
    lands(machine, memory, listed, course)
        .map_err(|text| format!("with the records' stamps in the timetable: {text}"))?;
    counts.event(Event::OnceLaw);
    Ok(())
}
