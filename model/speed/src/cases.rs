//! What is measured: a program, its timetable, trace and stop address, and the calls that are made; or the words that are read.

use crate::programs::{every_row, moves, plain, reading, through, undecoded, Trace, World};
use crate::words::{self, Pair};

/// The calls of one turn on a machine.
#[derive(Clone, Copy)]
pub enum Calls {
    /// Run calls, each with this budget.
    Run { calls: u64, budget: u64 },
    /// Step calls.
    Steps(u64),
}

/// One turn.
pub enum Work {
    /// Calls on a machine that is started in this world.
    Machine(World, Calls),
    /// A read call of each of these.
    Read(Vec<Pair>),
}

pub struct Case {
    pub what: &'static str,
    pub work: Work,
    /// How often a round starts over.
    pub turns: u64,
    /// The length of a round beside another archive, in parts of `WHOLE_TURNS` steps or of the list; 0 where it is no row there.
    pub parts: u64,
}

impl Case {
    /// The same, also measured beside another archive.
    fn compared(self, parts: u64) -> Case {
        Case { parts, ..self }
    }

    /// So many parts of its work, in one turn where it has a machine.
    pub fn cut(self, parts: u64) -> Case {
        let calls = |calls| match calls {
            Calls::Run { .. } => run(parts * WHOLE_TURNS),
            Calls::Steps(_) => Calls::Steps(parts * WHOLE_TURNS),
        };
        let (work, turns) = match self.work {
            Work::Machine(world, old) => (Work::Machine(world, calls(old)), 1),
            Work::Read(pairs) => (Work::Read(pairs), parts),
        };
        Case {
            work,
            turns,
            ..self
        }
    }
}

/// Steps that are whole turns of each loop that is compared: 6, 7, 16 and 25 steps.
pub const WHOLE_TURNS: u64 = 16_800;

/// The most stamps and the most records, and a few.
const MANY: u64 = 4_096;
const FEW: u64 = 64;

/// A stamp each 50 cycles, after this clock.
fn stamps(count: u64, after: u64) -> Vec<u64> {
    (1..=count).map(|i| after + 50 * i).collect()
}

/// Later than any run here.
const FAR: u64 = 1 << 40;

/// All cases, made as they are asked for; the first is the loop that other tools run too.
pub fn cases() -> impl Iterator<Item = Case> {
    let groups = [
        plain_runs,
        traced_runs,
        module_runs,
        readings,
        mixed_runs,
        steps,
        read_calls,
    ];
    groups.into_iter().flat_map(|group| group())
}

/// Those that are measured beside another archive.
pub fn compared() -> impl Iterator<Item = Case> {
    cases().filter(|case| case.parts > 0)
}

fn case(what: &'static str, world: World, calls: Calls, turns: u64) -> Case {
    Case {
        what,
        work: Work::Machine(world, calls),
        turns,
        parts: 0,
    }
}

/// So many run calls, each with this budget.
fn runs(calls: u64, budget: u64) -> Calls {
    Calls::Run { calls, budget }
}

/// One run call.
fn run(budget: u64) -> Calls {
    runs(1, budget)
}

/// Runs outside the module. GIE is clear, so stamps that pass merge in the slot.
fn plain_runs() -> Vec<Case> {
    let world = |stamps, clock| World::new(&plain(), stamps, clock);
    let long = runs(10, 1_000_000);
    let all = stamps(MANY, 0);
    vec![
        case("run, plain loop", world(Vec::new(), 0), long, 1).compared(10),
        case(
            "run, plain loop, a stop address never met",
            world(Vec::new(), 0).stopped_elsewhere(),
            long,
            1,
        )
        .compared(10),
        case(
            "run, plain loop, a request pending",
            world(vec![1], 0),
            run(1_000_000),
            2,
        ),
        case(
            "run, plain loop, 4,096 stamps ahead",
            world(stamps(MANY, FAR), 0),
            run(200_000),
            1,
        ),
        case(
            "run, plain loop, 4,096 stamps passing",
            world(all.clone(), 0),
            run(111_000),
            2,
        ),
        case(
            "run, plain loop, 4,096 stamps behind",
            world(all, 1_000_000),
            run(200_000),
            1,
        ),
    ]
}

/// The same with as many records as stamps, each record between two stamps.
fn traced_runs() -> Vec<Case> {
    let world = |after, clock| {
        let trace = Trace::at(stamps(MANY, after + 25));
        World::new(&plain(), stamps(MANY, after), clock).traced(trace)
    };
    vec![
        case(
            "run, plain loop, 4,096 stamps and records ahead",
            world(FAR, 0),
            run(100_000),
            1,
        ),
        case(
            "run, plain loop, 4,096 stamps and records passing",
            world(0, 0),
            run(111_000),
            1,
        ),
        case(
            "run, plain loop, 4,096 stamps and records behind",
            world(0, 1_000_000),
            run(100_000),
            1,
        ),
    ]
}

/// Runs through the module, which pulses interrupt.
fn module_runs() -> Vec<Case> {
    let world = |stamps| World::new(&through(), stamps, 0);
    let long = runs(5, 1_000_000);
    vec![
        case("run, through the module", world(Vec::new()), long, 1).compared(8),
        case(
            "run, module, a stop address never met",
            world(Vec::new()).stopped_elsewhere(),
            long,
            1,
        ),
        case(
            "run, module, a pulse each 50 cycles, 4,096",
            world(stamps(MANY, 0)),
            run(MODULE_STEPS * MANY),
            4,
        )
        .compared(3),
        case(
            "run, module, a pulse each 50 cycles, 64",
            world(stamps(FEW, 0)),
            run(MODULE_STEPS * FEW),
            1_000,
        ),
    ]
}

/// Steps from one pulse to the next.
const MODULE_STEPS: u64 = 17;

/// Runs of a loop of IN. At the trace's start the clock stays between its first record and its second, at its end behind its last.
fn readings() -> Vec<Case> {
    let world = |records, clock| {
        let trace = Trace::at(records);
        World::new(&reading(), Vec::new(), clock).traced(trace)
    };
    let mut first = vec![5];
    first.extend(stamps(MANY - 1, FAR));
    let all = stamps(MANY, 0);
    vec![
        case(
            "run, a loop of IN, no trace",
            world(Vec::new(), 0),
            run(1_000_000),
            1,
        )
        .compared(1),
        case(
            "run, a loop of IN, at a trace's start",
            world(first, 10),
            run(100_000),
            1,
        ),
        case(
            "run, a loop of IN, a trace passing",
            world(all.clone(), 0),
            run(111_000),
            1,
        ),
        case(
            "run, a loop of IN, at a trace's end",
            world(all, 1_000_000),
            run(100_000),
            1,
        ),
    ]
}

/// Runs of what the other loops have little of: each kind of row, and resets.
fn mixed_runs() -> Vec<Case> {
    let world = |words: &[(u16, u16)]| World::new(words, Vec::new(), 0);
    vec![
        case(
            "run, a loop of moves and immediates",
            world(&moves()),
            runs(5, 1_000_000),
            1,
        )
        .compared(10),
        case(
            "run, a loop of all rows but HLT",
            world(&every_row()),
            run(1_000_000),
            1,
        )
        .compared(1),
        case(
            "run, resets on a word that does not decode",
            world(&undecoded()),
            run(500_000),
            1,
        )
        .compared(1),
    ]
}

/// Step calls.
fn steps() -> Vec<Case> {
    let world = |stamps| World::new(&plain(), stamps, 0);
    let calls = Calls::Steps(2_000_000);
    let trace = Trace::at(stamps(MANY, FAR + 25));
    vec![
        case("step calls, plain loop", world(Vec::new()), calls, 1).compared(2),
        case(
            "step calls, plain loop, 64 stamps ahead",
            world(stamps(FEW, FAR)),
            calls,
            1,
        )
        .compared(1),
        case(
            "step calls, plain loop, 4,096 stamps and records",
            world(stamps(MANY, FAR)).traced(trace),
            Calls::Steps(20_000),
            1,
        ),
        case(
            "step calls, a loop of moves and immediates",
            World::new(&moves(), Vec::new(), 0),
            calls,
            1,
        )
        .compared(2),
    ]
}

/// Read calls.
fn read_calls() -> Vec<Case> {
    let case = |what, pairs| Case {
        what,
        work: Work::Read(pairs),
        turns: 12,
        parts: 1,
    };
    vec![
        case("read calls, moves and immediates", words::moves()),
        case("read calls, all rows evenly", words::every_row()),
        case("read calls, words that do not decode", words::undecoded()),
    ]
}
