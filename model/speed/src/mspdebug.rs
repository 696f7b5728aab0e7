//! The simulator of `mspdebug` on the plain loop.

use crate::measure::ROUNDS;
use crate::modelled::Modelled;
use crate::programs::{plain, World, PLAIN_START, PLAIN_WORDS};
use crate::subject::Subject;
use std::process::{Command, Stdio};
use std::time::Instant;

/// Two numbers of steps: starting up is left out by taking the difference.
const FEW: u64 = 2_000_000;
const MANY: u64 = 22_000_000;

/// The registers that mean the same in both: all but sr, whose C differs, and r3.
const SEEN: [usize; 8] = [0, 1, 4, 5, 6, 7, 8, 9];

/// Time a step, beside the library's.
pub fn row(library: f64) -> Result<String, String> {
    let (mut few, mut many) = (f64::MAX, f64::MAX);
    for _ in 0..ROUNDS {
        let Some(seconds) = seconds(FEW)? else {
            return Ok("no mspdebug on the path: its row is left out".into());
        };
        few = few.min(seconds);
        many = many.min(seconds_of(MANY)?);
    }
    let step = (many - few) * 1e9 / (MANY - FEW) as f64;
    Ok(format!(
        "mspdebug, plain loop: {step:.2} ns a step, library {library:.2} ns, ratio {:.2}",
        step / library
    ))
}

fn seconds_of(steps: u64) -> Result<f64, String> {
    seconds(steps)?.ok_or_else(|| "mspdebug went away".into())
}

/// How long the program takes for so many steps, if it is there.
fn seconds(steps: u64) -> Result<Option<f64>, String> {
    let begun = Instant::now();
    let Ok(output) = Command::new("mspdebug")
        .args(["-q", "sim"])
        .args(commands(steps))
        .stdin(Stdio::null())
        .output()
    else {
        return Ok(None);
    };
    let seconds = begun.elapsed().as_secs_f64();
    let text = String::from_utf8_lossy(&output.stdout).into_owned();
    if registers(&text) != expected(steps) {
        return Err(format!("mspdebug ends elsewhere than the model:\n{text}"));
    }
    Ok(Some(seconds))
}

/// Sets the loop up and steps.
fn commands(steps: u64) -> Vec<String> {
    let bytes: Vec<String> = PLAIN_WORDS
        .iter()
        .flat_map(|word| word.to_le_bytes())
        .map(|byte| format!("{byte:#04x}"))
        .collect();
    let mut commands = vec![format!(
        "fill {PLAIN_START:#06x} {} {}",
        bytes.len(),
        bytes.join(" ")
    )];
    for number in 0..16 {
        commands.push(format!("set R{number} 0"));
    }
    commands.push(format!("set PC {PLAIN_START:#06x}"));
    commands.push(format!("step {steps}"));
    commands
}

/// The registers that `step` prints last, or none where they can't be found.
fn registers(text: &str) -> Option<Vec<u16>> {
    SEEN.iter()
        .map(|&number| {
            let name = match number {
                0 => "PC: ".to_string(),
                1 => "SP: ".to_string(),
                _ => format!(" R{number}: "),
            };
            let place = text.rfind(&name)? + name.len();
            u16::from_str_radix(text.get(place..place + 5)?, 16).ok()
        })
        .collect()
}

/// The same registers of the model after as many steps.
fn expected(steps: u64) -> Option<Vec<u16>> {
    let world = World::new(&plain(), Vec::new(), 0);
    let mut machine = Modelled.start(&world);
    let mut left = steps;
    while left > 0 {
        left -= Modelled.run(&mut machine, &world, left.min(1_000_000));
    }
    let last = Modelled.last(machine);
    Some(SEEN.iter().map(|&number| last.registers[number]).collect())
}
