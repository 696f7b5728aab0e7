//! Demand 3 at random: two machines that differ in the module's bytes only, and whose visits end
//! alike, look the same to all outside code.

use crate::calm::{self, Manner};
use crate::counts::{Counts, Event};
use crate::course::{course, Bound, Course, Made};
use crate::laws;
use crate::random::Random;
use crate::rides::{self, Ride};
use crate::scene::{self, Scene};
use crate::subject::{outside, Addresses, Lent, State, Subject, PC};
use crate::timetables;
use crate::visits::{visits, Visit};

/// What outside code can see at one moment.
#[derive(Debug, PartialEq, Eq)]
struct View {
    clock: u64,
    registers: [u16; 16],
    outside: u64,
    slot: u64,
    alarm: u64,
}

/// What one step outside shows.
#[derive(Debug, PartialEq, Eq)]
enum Sighting {
    /// Before, after, kind and cause.
    Whole(View, View, u8, u8),
    /// A RETI that resumes: before.
    Resumes(View),
}

/// Two memories that are equal outside.
struct Twins {
    scene: Scene,
    memories: [Vec<u8>; 2],
}

/// Two machines that differ in the module's bytes only, with the timetable and the trace that they
/// share.
pub struct Pair {
    twins: Twins,
    stamps: Vec<u64>,
    ride: Ride,
    bounds: [Bound; 2],
}

impl Pair {
    /// The pair of a seed and an index.
    pub fn new(seed: u64, index: u64) -> Pair {
        let mut random = Random::new(seed ^ 0x5EC2, index);
        let twins = if random.one_in(4) {
            wild(&mut random)
        } else {
            calm_twins(&mut random)
        };
        let stamps = timetables::taken(&mut random, 0);
        let ride = rides::taken(&mut random, &twins.scene, 0, &stamps);
        // The lists may differ in calls and length.
        let bounds = [(); 2].map(|_| Bound {
            clock: random.between(300, 1500),
            steps: 600,
            calls: random.next(),
        });
        Pair {
            twins,
            stamps,
            ride,
            bounds,
        }
    }

    fn lent(&self) -> Lent<'_> {
        Lent {
            layout: &self.twins.scene.layout,
            stamps: &self.stamps,
            records: self.ride.lent(),
        }
    }

    /// The runs of both machines.
    pub fn runs(&self, machine: &Subject) -> Result<[Course; 2], String> {
        let run = |which: usize| {
            let memory = &self.twins.memories[which];
            course(machine, memory, self.lent(), self.bounds[which])
        };
        Ok([run(0)?, run(1)?])
    }

    /// The laws, on both runs.
    pub fn laws(
        &self,
        machine: &Subject,
        runs: &[Course; 2],
        counts: &mut Counts,
    ) -> Result<(), String> {
        for (memory, run) in self.twins.memories.iter().zip(runs) {
            laws::laws(machine, memory, self.lent(), run, counts)?;
        }
        Ok(())
    }

    /// Demand 3, on both runs.
    pub fn secrecy(&self, runs: &[Course; 2], counts: &mut Counts) -> Result<(), String> {
        compare(&runs[0], &runs[1], self.lent(), counts)
    }
}

/// Calm modules of one manner; in some pairs one is slower, which breaks the premise at the first
/// end.
fn calm_twins(random: &mut Random) -> Twins {
    let scene = calm::scene(random);
    let manner = Manner::new(random);
    let other = if random.one_in(6) {
        manner.slower(random)
    } else {
        manner
    };
    let mut first = calm::outside_memory(random, &scene);
    let mut second = first.clone();
    calm::put_module(random, &scene, manner, &mut first);
    calm::put_module(random, &scene, other, &mut second);
    Twins {
        scene,
        memories: [first, second],
    }
}

/// Any programs, with two modules of random instructions.
fn wild(random: &mut Random) -> Twins {
    let scene = Scene::new(random);
    let first = scene::memory(random, &scene, true);
    let mut second = scene::memory(random, &scene, true);
    only_module(&first, &mut second, &scene.layout);
    Twins {
        scene,
        memories: [first, second],
    }
}

/// Makes the outside bytes equal.
fn only_module(from: &[u8], to: &mut [u8], layout: &Addresses) {
    for (address, byte) in from.iter().enumerate() {
        if outside(layout, address as u16) {
            to[address] = *byte;
        }
    }
}

fn view(state: &State, outside: u64) -> View {
    View {
        clock: state.clock,
        registers: state.registers,
        outside,
        slot: state.slot,
        alarm: state.alarm,
    }
}

/// The sighting of a step that begins outside.
fn sighting(step: &Made) -> Sighting {
    let before = view(&step.before, step.outside_before);
    // A padded interrupt in a step that begins outside follows a resumption.
    if step.kind == b'B' || step.kind == b'P' {
        return Sighting::Resumes(before);
    }
    Sighting::Whole(
        before,
        view(&step.after, step.outside_after),
        step.kind,
        step.cause,
    )
}

/// The steps that begin outside at a clock value or below.
fn sightings(run: &Course, layout: &Addresses, limit: u64) -> Vec<Sighting> {
    let seen =
        |step: &&Made| outside(layout, step.before.registers[PC]) && step.before.clock <= limit;
    run.steps.iter().filter(seen).map(sighting).collect()
}

/// The largest clock value up to which the premise holds: it fails from the first end that the
/// other run does not share.
fn premise_limit(first: &[Visit], second: &[Visit]) -> u64 {
    let mut limit = u64::MAX;
    for number in 0..first.len().max(second.len()) {
        let ends = [first, second].map(|visits| {
            visits
                .get(number)
                .and_then(|visit| Some((visit.own, visit.end?)))
        });
        if let [Some((own, end)), Some((other_own, other))] = ends {
            if own == other_own && end.way == other.way && end.registers == other.registers {
                continue;
            }
        }
        for (_, end) in ends.into_iter().flatten() {
            limit = limit.min(end.clock - 1);
        }
    }
    limit
}

/// Whether a run ends above a clock value or halted.
fn is_over(run: &Course, limit: u64) -> bool {
    run.steps
        .last()
        .is_some_and(|step| step.after.clock > limit || step.after.halted == 1)
}

/// Where the premise holds, the sightings are equal, first to first; if both runs are over, they
/// are equally many.
fn compare(first: &Course, second: &Course, lent: Lent, counts: &mut Counts) -> Result<(), String> {
    let layout = lent.layout;
    let both = [first, second].map(|run| visits(&run.steps, layout));
    let limit = premise_limit(&both[0], &both[1]);
    count_pair(first, &both, limit, lent, counts);
    count_stops([first, second], counts);
    // Just below the end of the shorter run both are over; above it, the sightings agree as far as
    // both go.
    let last = |run: &Course| run.steps.last().map_or(0, |step| step.after.clock);
    let shorter = last(first).min(last(second)).saturating_sub(1);
    for limit in [limit, limit.min(shorter)] {
        let seen = [first, second].map(|run| sightings(run, layout, limit));
        for (number, (one, other)) in seen[0].iter().zip(&seen[1]).enumerate() {
            if one != other {
                return Err(format!(
                    "sighting {number} up to {limit} differs:\n  {one:?}\n  {other:?}"
                ));
            }
        }
        counts.events(Event::Sighting, seen[0].len().min(seen[1].len()) as u64);
        equally_many(first, second, [seen[0].len(), seen[1].len()], limit, counts)?;
    }
    Ok(())
}

/// If each run ends above the clock value or halted, the sightings are equally many.
fn equally_many(
    first: &Course,
    second: &Course,
    lengths: [usize; 2],
    limit: u64,
    counts: &mut Counts,
) -> Result<(), String> {
    if is_over(first, limit) && is_over(second, limit) {
        let [one, other] = lengths;
        if one != other {
            return Err(format!("{one} and {other} sightings up to {limit}"));
        }
        counts.event(Event::EquallyMany);
    }
    Ok(())
}

/// Counts what the pair had up to a clock value.
fn count_pair(first: &Course, both: &[Vec<Visit>; 2], limit: u64, lent: Lent, counts: &mut Counts) {
    counts.event(Event::Pair);
    let records = lent.records.stamps;
    counts.events(Event::PairWithRecords, !records.is_empty() as u64);
    let ended = |visit: &Visit| visit.end.is_some_and(|end| end.clock <= limit);
    if !(both[0].iter().any(ended) && both[1].iter().any(ended)) {
        return;
    }
    counts.event(Event::PairWithVisit);
    let padded = |step: &Made| step.kind == b'P' && step.before.clock <= limit;
    if first.steps.iter().any(padded) {
        counts.event(Event::PairWithPadded);
    }
    // Served twelve cycles after a record.
    let of_record = |step: &Made| {
        let stamp = step.after.clock.checked_sub(12);
        padded(step) && stamp.is_some_and(|stamp| records.binary_search(&stamp).is_ok())
    };
    if first.steps.iter().any(of_record) {
        counts.event(Event::PairWithRecordPadded);
    }
}

/// Counts the runs with a stop address in both lists.
fn count_stops(lists: [&Course; 2], counts: &mut Counts) {
    counts.events(Event::ListedStop, lists.iter().map(|list| list.runs).sum());
    let met = lists.iter().any(|list| list.met > 0);
    counts.events(Event::PairWithStop, met as u64);
}
