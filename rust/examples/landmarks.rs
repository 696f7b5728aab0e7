//! Reads a bench sheet from standard input, runs its image from landmark to landmark and prints where it
//! stands at each.
//!
//! `cargo run --release --manifest-path rust/Cargo.toml --example landmarks -- 8000 4500 8006 4600 < sheets/document-01.sheet`
//!
//! It takes, prints and answers what `examples/run_landmarks.c` does; what that is stands at its top.

use std::env;
use std::io::{self, Read, Write};
use std::process::ExitCode;

use enclave::{Budget, End, Machine, Setup, Stop, StopAddress};

const NO_LANDMARK: &str =
    "no landmark: give one or more even addresses, as in 8000 4500, and the sheet on standard input";

const HEADING: &str = "landmark\tend\tsteps\tclock\tpc\tsp\tsr\tr3\tr4\tr5\tr6\tr7\tr8\tr9\tr10\tr11\tr12\tr13\tr14\tr15";

/// One byte more than a sheet may have, so that a longer one is refused and not cut.
const MOST_BYTES: u64 = 32_769;

fn main() -> ExitCode {
    let arguments: Vec<String> = env::args_os()
        .skip(1)
        .map(|argument| argument.to_string_lossy().into_owned())
        .collect();
    match run_landmarks(&arguments) {
        Ok(None) => ExitCode::SUCCESS,
        Ok(Some(unmet)) => {
            eprintln!("{unmet}");
            ExitCode::from(1)
        }
        Err(fault) => {
            eprintln!("{fault}");
            ExitCode::from(2)
        }
    }
}

// Runs from landmark to landmark; the sentence on the first that is not met, if one is not, or on what
// is wrong.
fn run_landmarks(arguments: &[String]) -> Result<Option<String>, String> {
    let landmarks = landmarks_of(arguments)?;
    let mut sheet = Vec::new();
    io::stdin()
        .take(MOST_BYTES)
        .read_to_end(&mut sheet)
        .map_err(|error| format!("standard input: {error}"))?;
    let setup = Setup::read(&sheet).map_err(|refusal| refusal.to_string())?;
    let mut out = io::stdout().lock();
    let unmet = write_places(Journey::start(setup), &landmarks, &mut out);
    let unmet = unmet.map_err(|error| format!("standard output: {error}"))?;
    Ok(unmet.map(|(landmark, end)| format!("landmark {landmark} was not met: {}", reason(end))))
}

// The landmarks that the arguments say.
fn landmarks_of(arguments: &[String]) -> Result<Vec<StopAddress>, String> {
    if arguments.is_empty() {
        return Err(NO_LANDMARK.into());
    }
    let landmarks = arguments.iter().map(|argument| {
        let fault = |what: &str| format!("landmark {argument}: {what}");
        let address = address_of(argument).ok_or_else(|| {
            fault("it is no address: give one to four hexadecimal digits, as in 8000")
        })?;
        StopAddress::new(address).map_err(|refusal| fault(&refusal.to_string()))
    });
    landmarks.collect()
}

// The address that an argument says: one to four hexadecimal digits.
fn address_of(argument: &str) -> Option<u16> {
    let digits = argument.bytes().all(|byte| byte.is_ascii_hexdigit());
    let fits = (1..=4).contains(&argument.len());
    (digits && fits).then(|| u16::from_str_radix(argument, 16).ok())?
}

// A sheet's machine on its way: the steps that it has made, and where it last met a landmark.
struct Journey {
    setup: Setup,
    machine: Machine,
    steps: u64,
    last: Option<StopAddress>,
}

impl Journey {
    fn start(setup: Setup) -> Journey {
        let machine = setup.start();
        Journey {
            setup,
            machine,
            steps: 0,
            last: None,
        }
    }

    // The steps that the sheet's budget still has.
    fn left(&self) -> Budget {
        let left = self.setup.budget.steps() - self.steps;
        Budget::new(left).expect("no more than the sheet's budget")
    }

    // Runs on to the landmark. A run that begins at its stop address ends there at once: where the last
    // landmark was the same, one step is made first.
    fn run_on(&mut self, landmark: StopAddress) -> End {
        if self.last == Some(landmark) {
            let one = Budget::new(1).expect("one step is taken").min(self.left());
            let stop = self.run_once(None, one);
            if stop.end != End::Spent || stop.steps == 0 {
                return stop.end;
            }
        }
        self.last = Some(landmark);
        self.run_once(Some(landmark), self.left()).end
    }

    // One run call, to a landmark if there is one.
    fn run_once(&mut self, landmark: Option<StopAddress>, budget: Budget) -> Stop {
        let Setup {
            memory,
            timetable,
            trace,
            ..
        } = &mut self.setup;
        let stop = match landmark {
            None => self.machine.run(memory, timetable, trace, budget),
            Some(landmark) => self
                .machine
                .run_to(memory, timetable, trace, landmark, budget),
        };
        let stop = stop.expect("the clock was not above 2^62");
        self.steps += stop.steps;
        stop
    }

    // Writes where the machine stands.
    fn write_place(&self, landmark: StopAddress, end: End, out: &mut impl Write) -> io::Result<()> {
        write!(
            out,
            "{landmark}\t{end}\t{}\t{}",
            self.steps,
            self.machine.clock()
        )?;
        for register in self.machine.registers() {
            write!(out, "\t{register:04X}")?;
        }
        writeln!(out)
    }
}

// Writes where the machine stands at each landmark, up to the first that is not met, which is told with
// the end of the run.
fn write_places(
    mut journey: Journey,
    landmarks: &[StopAddress],
    out: &mut impl Write,
) -> io::Result<Option<(StopAddress, End)>> {
    writeln!(out, "{HEADING}")?;
    for &landmark in landmarks {
        let end = journey.run_on(landmark);
        journey.write_place(landmark, end, out)?;
        if end != End::Address {
            out.flush()?;
            return Ok(Some((landmark, end)));
        }
    }
    out.flush()?;
    Ok(None)
}

// Why a landmark was not met.
fn reason(end: End) -> &'static str {
    match end {
        End::Halted => "the machine halted before",
        End::Clock => "the clock went above 2^62 before",
        End::Address => "it was met",
        End::Spent => "the sheet's budget was spent before",
    }
}
