//! Times the same work on two sides.

use crate::cases::{Calls, Case, Work};
use crate::library::{Library, Linked};
use crate::modelled::Modelled;
use crate::programs::World;
use crate::subject::{Answer, Last, Subject};
use crate::words::Pair;
use std::time::{Duration, Instant};

/// The rounds of each figure, the best of which counts.
pub const ROUNDS: u32 = 5;

/// Nanoseconds a step, call, word or line.
pub struct Row {
    pub what: String,
    pub library: f64,
    pub model: f64,
}

/// What a round of one side took and came to; where words are read, each is a step.
pub struct Round {
    pub nanoseconds: f64,
    pub steps: u64,
    end: End,
}

/// What is the same on all sides.
#[derive(PartialEq)]
enum End {
    Machine(Option<Last>),
    Answers(Vec<Option<Answer>>),
}

impl Round {
    fn new(spent: Duration, steps: u64, end: End) -> Round {
        Round {
            nanoseconds: spent.as_secs_f64() * 1e9 / steps as f64,
            steps,
            end,
        }
    }

    /// Whether both came to the same by as many steps.
    pub fn agrees(&self, other: &Round) -> bool {
        self.steps == other.steps && self.end == other.end
    }
}

/// The best rounds of both sides.
pub fn row(case: &Case) -> Result<Row, String> {
    let (mut library, mut model) = (f64::MAX, f64::MAX);
    for _ in 0..ROUNDS {
        let ours = round(&Library(Linked), case);
        let theirs = round(&Modelled, case);
        if !ours.agrees(&theirs) {
            return Err(format!("{}: library and model differ", case.what));
        }
        library = library.min(ours.nanoseconds);
        model = model.min(theirs.nanoseconds);
    }
    Ok(Row {
        what: case.what.into(),
        library,
        model,
    })
}

/// One round of one side. Only the calls are timed.
pub fn round<S: Subject>(subject: &S, case: &Case) -> Round {
    match &case.work {
        Work::Machine(world, calls) => machine_round(subject, world, *calls, case.turns),
        Work::Read(pairs) => read_round(subject, pairs, case.turns),
    }
}

/// Starts over and makes the calls, some turns long.
fn machine_round<S: Subject>(subject: &S, world: &World, calls: Calls, turns: u64) -> Round {
    let mut spent = Duration::ZERO;
    let mut steps = 0;
    let mut last = None;
    for _ in 0..turns {
        let mut machine = subject.start(world);
        let begun = Instant::now();
        steps += work(subject, &mut machine, world, calls);
        spent += begun.elapsed();
        last = Some(subject.last(machine));
    }
    Round::new(spent, steps, End::Machine(last))
}

/// The calls of one turn; their steps.
fn work<S: Subject>(subject: &S, machine: &mut S::Machine, world: &World, calls: Calls) -> u64 {
    match calls {
        Calls::Run { calls, budget } => (0..calls)
            .map(|_| subject.run(machine, world, budget))
            .sum(),
        Calls::Steps(calls) => {
            for _ in 0..calls {
                subject.step(machine, world);
            }
            calls
        }
    }
}

/// Reads the list over and over; then each of its words once more, untimed, for the answers.
fn read_round<S: Subject>(subject: &S, pairs: &[Pair], turns: u64) -> Round {
    let begun = Instant::now();
    for _ in 0..turns {
        pairs.iter().for_each(|&pair| subject.read(pair));
    }
    let spent = begun.elapsed();
    let answers = pairs.iter().map(|&pair| subject.answer(pair)).collect();
    Round::new(spent, turns * pairs.len() as u64, End::Answers(answers))
}
