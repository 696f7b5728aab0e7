//! Makes the calls of a world on both sides and compares everything after each of them.

use crate::counts::{Counts, Event};
use crate::frames;
use crate::landmarks::Landmark;
use crate::random::Random;
use crate::rides::Ride;
use crate::subject::{Addresses, Lent, Ran, State, Subject, CLOCK_LIMIT, MEMORY_BYTES};
use crate::watch;
use crate::world::{Act, Begin, Call, Twist, World};

/// The two sides.
#[derive(Clone, Copy)]
pub struct Sides {
    pub library: &'static Subject,
    pub model: &'static Subject,
}

/// One machine on both sides.
struct Pair<'a> {
    sides: Sides,
    world: &'a World,
    state: State,
    library_memory: Vec<u8>,
    model_memory: Vec<u8>,
    /// Whether the last call was a run that ended at its stop address.
    stopped: bool,
}

/// What a call is lent.
struct Loan {
    state: State,
    size: usize,
    layout: Addresses,
    stamps: Option<Vec<u64>>,
    ride: Option<Ride>,
    /// In which way the frame is broken, and the trace.
    fault: Option<usize>,
    way: Option<usize>,
    /// The stop address, where the call has one.
    stop: Option<u16>,
}

/// Both answers to a call: what was told, or the refusal.
struct Answers {
    library: Result<(u8, u64), u8>,
    model: Result<(u8, u64), u8>,
    library_state: State,
    model_state: State,
}

/// Drives both sides through a world. The error tells the first difference.
pub fn drive(sides: Sides, world: &World, counts: &mut Counts) -> Result<(), String> {
    counts.worlds += 1;
    watch::layout(world, counts);
    let state = begin(sides, world, counts)?;
    let mut pair = Pair {
        sides,
        world,
        state,
        library_memory: world.memory.clone(),
        model_memory: world.memory.clone(),
        stopped: false,
    };
    for (number, call) in world.calls.iter().enumerate() {
        let stuck = pair.state.halted == 1 || pair.state.clock > CLOCK_LIMIT;
        if stuck && number % 3 == 0 {
            pair.state = start(sides, &pair.library_memory, counts)?;
        }
        pair.call(call, counts)
            .map_err(|text| format!("call {number} ({call:?}): {text}"))?;
    }
    Ok(())
}

/// The state that the library must hand back. A refused call leaves it as it came, also what
/// means nothing in it. Where nothing is held the saved registers are 0, but a call that makes no
/// step changes nothing, and leaves them as they came.
fn expected_state(loan: &Loan, answers: &Answers) -> State {
    if answers.library.is_err() {
        return loan.state;
    }
    let mut expected = answers.model_state;
    let no_step = expected.clock == loan.state.clock;
    if expected.held == 0 && no_step {
        expected.saved = loan.state.saved;
    }
    expected
}

/// The first state; start is tried on memory of the wrong size as well.
fn begin(sides: Sides, world: &World, counts: &mut Counts) -> Result<State, String> {
    for size in [0, 2, MEMORY_BYTES - 1] {
        let refused = same_start(sides, &world.memory[..size], counts)?;
        if refused != Err(1) {
            return Err(format!("start on {size} bytes: {refused:?}"));
        }
    }
    let started = start(sides, &world.memory, counts)?;
    Ok(match world.begin {
        Begin::Invented(state) => state,
        Begin::Start => started,
    })
}

/// Start on both sides, on a memory that is taken.
fn start(sides: Sides, memory: &[u8], counts: &mut Counts) -> Result<State, String> {
    let started = same_start(sides, memory, counts)?;
    started.map_err(|number| format!("start is refused by {number}"))
}

/// Start on both sides. The outer error is a difference.
fn same_start(
    sides: Sides,
    memory: &[u8],
    counts: &mut Counts,
) -> Result<Result<State, u8>, String> {
    let (library, model) = ((sides.library.start)(memory), (sides.model.start)(memory));
    if library != model {
        return Err(format!("start: library {library:?}, model {model:?}"));
    }
    counts.calls += 1;
    if let Err(number) = library {
        counts.refusal(number);
    }
    Ok(library)
}

/// Counts what a compared call met.
fn note(
    act: Act,
    loan: &Loan,
    answers: &Answers,
    before: watch::Before,
    counts: &mut Counts,
) -> Result<(), String> {
    let state = &answers.library_state;
    if answers.library.is_ok() && state.held == 0 && state.saved != [0; 16] {
        counts.noise_kept += 1;
    }
    match (answers.library, act) {
        (Err(number), _) => note_refusal(number, loan, counts),
        (Ok((kind, cause)), Act::Step) => {
            counts.steps += (loan.state.halted == 0) as u64;
            counts.one_by_one += (loan.state.halted == 0) as u64;
            counts.kind(kind, cause as u8);
            before.watch(state, kind, cause as u8, counts)?;
        }
        (Ok((end, steps)), Act::Run(budget) | Act::RunTo(_, budget)) => {
            counts.steps += steps;
            counts.end(end);
            counts.events(Event::EmptyRun, (budget == 0) as u64);
            counts.events(Event::LongRun, (budget == 1_000_000) as u64);
        }
    }
    note_stop(act, loan, answers, counts);
    Ok(())
}

/// Counts what a run had to do with its stop address.
fn note_stop(act: Act, loan: &Loan, answers: &Answers, counts: &mut Counts) {
    let (Act::RunTo(_, budget), Some(stop)) = (act, loan.stop) else {
        return;
    };
    let landmark = Landmark {
        layout: &loan.layout,
        stop,
        budget,
        before: &loan.state,
    };
    match answers.library {
        Ok((end, steps)) => landmark.ended(&answers.library_state, end, steps, counts),
        Err(number) => landmark.refused(number, counts),
    }
}

/// Counts a refusal and what was wrong.
fn note_refusal(number: u8, loan: &Loan, counts: &mut Counts) {
    counts.refusal(number);
    if let (4, Some(fault)) = (number, loan.fault) {
        counts.fault(fault);
    }
    if let (10, Some(way)) = (number, loan.way) {
        counts.way(way);
    }
    counts.events(
        Event::ThreeBeforeTen,
        (number == 3 && loan.way.is_some()) as u64,
    );
    counts.events(
        Event::TenBeforeFour,
        (number == 10 && loan.fault.is_some()) as u64,
    );
}

impl Pair<'_> {
    /// One call on both sides.
    fn call(&mut self, call: &Call, counts: &mut Counts) -> Result<(), String> {
        let mut loan = self.loan(call);
        let stamps = loan
            .stamps
            .as_deref()
            .unwrap_or(&self.world.stamps)
            .to_vec();
        let ride = loan.ride.as_ref().unwrap_or(&self.world.ride).clone();
        let lent = Lent {
            layout: &loan.layout,
            stamps: &stamps,
            records: ride.lent(),
        };
        let before = watch::Before::new(&loan.state, &self.library_memory, lent);
        loan.stop = self.stop(call.act, &loan.state, lent);
        let answers = self.ask(call.act, &loan, lent);
        self.compare(&loan, &answers)?;
        if stamps != loan.stamps.as_deref().unwrap_or(&self.world.stamps) {
            return Err("the library altered the timetable".into());
        }
        if ride != *loan.ride.as_ref().unwrap_or(&self.world.ride) {
            return Err("the library altered the trace".into());
        }
        counts.calls += 1;
        self.go_on(&loan, &answers, counts);
        note(call.act, &loan, &answers, before, counts)
    }

    /// The stop address of a call, found on the model where it is one that the run comes to.
    fn stop(&self, act: Act, state: &State, lent: Lent) -> Option<u16> {
        match act {
            Act::RunTo(aim, _) => {
                Some(aim.address(self.sides.model, state, &self.model_memory, lent))
            }
            Act::Step | Act::Run(_) => None,
        }
    }

    /// Goes on from where a call left the machine.
    fn go_on(&mut self, loan: &Loan, answers: &Answers, counts: &mut Counts) {
        let Ok((end, _)) = answers.library else {
            return;
        };
        let moved = answers.library_state.clock != loan.state.clock;
        let on = self.stopped && loan.state == self.state && moved;
        counts.events(Event::OnFromThere, on as u64);
        self.stopped = loan.stop.is_some() && end == b'A';
        self.state = answers.library_state;
    }

    /// What this call is lent, with its twists.
    fn loan(&self, call: &Call) -> Loan {
        let mut loan = Loan {
            state: self.state,
            size: MEMORY_BYTES,
            layout: self.world.scene.layout,
            stamps: None,
            ride: None,
            fault: None,
            way: None,
            stop: None,
        };
        for twist in &call.twists {
            match twist {
                Twist::None => {}
                Twist::Size(size) => loan.size = *size,
                Twist::Layout(layout) => loan.layout = *layout,
                Twist::Stamps(stamps) => loan.stamps = Some(stamps.clone()),
                Twist::Ride(ride) => {
                    loan.ride = Some(ride.clone());
                    loan.way = None;
                }
                Twist::BrokenRide(way, ride) => {
                    loan.ride = Some(ride.clone());
                    loan.way = Some(*way);
                }
                Twist::State(state) => loan.state = *state,
                Twist::Late(clock) => {
                    loan.state.clock = *clock;
                    loan.state.alarm = 0;
                }
                Twist::Fault(fault, seed) => {
                    let mut random = Random::new(*seed, 0);
                    frames::break_frame(&mut random, &self.world.scene, &mut loan.state, *fault);
                    loan.fault = Some(*fault);
                }
            }
        }
        loan
    }

    /// Makes the call on both sides.
    fn ask(&mut self, act: Act, loan: &Loan, lent: Lent) -> Answers {
        // Memory beyond its 65,536 bytes is there only where a call is lent too much.
        self.library_memory.resize(loan.size.max(MEMORY_BYTES), 0);
        self.model_memory.resize(loan.size.max(MEMORY_BYTES), 0);
        let (mut library_state, mut model_state) = (loan.state, loan.state);
        let library_memory = &mut self.library_memory[..loan.size];
        let model_memory = &mut self.model_memory[..loan.size];
        let made = |subject: &Subject, state: &mut State, memory: &mut [u8]| -> Ran {
            match (act, loan.stop) {
                (Act::Run(budget) | Act::RunTo(_, budget), None) => {
                    (subject.run)(state, memory, lent, budget)
                }
                (Act::Run(budget) | Act::RunTo(_, budget), Some(stop)) => {
                    (subject.run_to)(state, memory, lent, stop, budget)
                }
                (Act::Step, _) => {
                    (subject.step)(state, memory, lent).map(|(kind, cause)| (kind, cause as u64))
                }
            }
        };
        let library = made(self.sides.library, &mut library_state, library_memory);
        let model = made(self.sides.model, &mut model_state, model_memory);
        Answers {
            library,
            model,
            library_state,
            model_state,
        }
    }

    /// Answer, every field of the state, every byte.
    fn compare(&mut self, loan: &Loan, answers: &Answers) -> Result<(), String> {
        let (library, model) = (answers.library, answers.model);
        if library != model {
            return Err(format!(
                "library answers {library:?}, model {model:?}, to {:04X?}, on {:?}",
                loan.stop, loan.state
            ));
        }
        let expected = expected_state(loan, answers);
        if answers.library_state != expected {
            let (got, from) = (answers.library_state, loan.state);
            return Err(format!(
                "library state {got:?}\n  expected {expected:?}\n  from {from:?}"
            ));
        }
        if self.library_memory != self.model_memory {
            let differs = |place: &usize| self.library_memory[*place] != self.model_memory[*place];
            let place = (0..MEMORY_BYTES).find(differs).unwrap_or(MEMORY_BYTES);
            return Err(format!(
                "memory differs first at {place:04X}, from {:?}",
                loan.state
            ));
        }
        self.library_memory.truncate(MEMORY_BYTES);
        self.model_memory.truncate(MEMORY_BYTES);
        Ok(())
    }
}
