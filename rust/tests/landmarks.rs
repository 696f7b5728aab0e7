//! Runs to a stop address: document 01's sheet from landmark to landmark, every address that the worked sheets'
//! transcripts name, and the order of the ends.

mod support;

use std::collections::BTreeMap;

use enclave::{
    Budget, End, Kind, Machine, Refusal, Setup, Stop, StopAddress, Timetable, Trace, LAST_CLOCK,
};
use support::{machine_at, model_transcript, paper_setup, worked_sheet, worked_sheets};

fn at(address: u16) -> StopAddress {
    StopAddress::new(address).unwrap()
}

fn budget(steps: u64) -> Budget {
    Budget::new(steps).unwrap()
}

// A run of a setup's machine to this address.
fn run_to(setup: &mut Setup, machine: &mut Machine, address: u16, most: u64) -> (End, u64) {
    let (timetable, trace) = (&setup.timetable, &setup.trace);
    let stop = machine.run_to(
        &mut setup.memory,
        timetable,
        trace,
        at(address),
        budget(most),
    );
    let Stop { end, steps } = stop.unwrap();
    (end, steps)
}

#[test]
fn stop_address_is_even() {
    for address in [0x0000, 0x0002, 0x4404, 0x8100, 0xFFFE] {
        let stop = StopAddress::new(address);
        assert_eq!(stop.map(StopAddress::address), Ok(address));
    }
    for address in [0x0001, 0x4405, 0x8101, 0xFFFF] {
        assert_eq!(StopAddress::new(address), Err(Refusal::Landmark));
    }
}

#[test]
fn end_at_an_address_is_a() {
    let letters = [End::Halted, End::Clock, End::Address, End::Spent].map(End::letter);
    assert_eq!(letters, ['H', 'T', 'A', 'S']);
    assert_eq!(End::Address.to_string(), "A");
}

// Steps and clock are those of document 01's transcript, sr too; r5 is what its image puts there.
#[test]
fn papers_sheet_from_landmark_to_landmark() {
    let mut setup = paper_setup();
    let mut machine = setup.start();
    for (landmark, steps, clock, sr, r5) in [
        (0x8000, 2, 4, 0x0008, 0x0000),
        (0x4500, 2, 18, 0x0000, 0x0000),
        (0x8006, 1, 24, 0x0008, 0x4600),
        (0x4600, 1, 26, 0x0008, 0x4600),
    ] {
        let stop = run_to(&mut setup, &mut machine, landmark, 20);
        assert_eq!(stop, (End::Address, steps));
        assert_eq!(machine.clock(), clock);
        let mut registers = [0; 16];
        (registers[0], registers[2], registers[5]) = (landmark, sr, r5);
        assert_eq!(*machine.registers(), registers);
    }
    let stop = run_to(&mut setup, &mut machine, 0x8000, 14);
    assert_eq!(stop, (End::Halted, 1));
    assert_eq!((machine.clock(), machine.pc()), (27, 0x4602));
}

#[test]
fn next_time_is_met_after_one_step() {
    let mut setup = paper_setup();
    let mut machine = setup.start();
    let first = run_to(&mut setup, &mut machine, 0x4500, 20);
    assert_eq!(first, (End::Address, 4));
    let before = (machine.clone(), setup.memory.clone());
    let again = run_to(&mut setup, &mut machine, 0x4500, 20);
    assert_eq!(again, (End::Address, 0));
    assert_eq!((&machine, &setup.memory), (&before.0, &before.1));
    let kind = machine.step(&mut setup.memory, &setup.timetable, &setup.trace);
    assert_eq!((kind, machine.clock()), (Ok(Kind::Back), 24));
    let next = run_to(&mut setup, &mut machine, 0x4500, 20);
    assert_eq!((next, machine.clock()), ((End::Halted, 2), 27));
}

#[test]
fn address_comes_before_spent() {
    for (most, end) in [(1, End::Spent), (2, End::Address), (3, End::Address)] {
        let mut setup = paper_setup();
        let mut machine = setup.start();
        let stop = run_to(&mut setup, &mut machine, 0x8000, most);
        assert_eq!(stop, (end, most.min(2)));
    }
}

#[test]
fn budget_0_makes_no_step() {
    let mut setup = paper_setup();
    let mut machine = setup.start();
    let before = (machine.clone(), setup.memory.clone());
    for (address, end) in [(0x4400, End::Address), (0x4404, End::Spent)] {
        let stop = run_to(&mut setup, &mut machine, address, 0);
        assert_eq!(stop, (end, 0));
    }
    assert_eq!((machine, setup.memory), before);
}

#[test]
fn halted_comes_before_address() {
    let mut setup = paper_setup();
    let mut machine = setup.start();
    let stop = run_to(&mut setup, &mut machine, 0x4602, 20);
    assert_eq!((stop, machine.clock()), ((End::Halted, 7), 27));
    let before = (machine.clone(), setup.memory.clone());
    for most in [0, 20] {
        let stop = run_to(&mut setup, &mut machine, 0x4602, most);
        assert_eq!(stop, (End::Halted, 0));
    }
    assert_eq!((machine, setup.memory), before);
}

#[test]
fn clock_comes_before_address() {
    let (none, silent) = (Timetable::empty(), Trace::empty());
    let (mut machine, mut memory) = machine_at(LAST_CLOCK);
    let stop = machine.run_to(&mut memory, &none, &silent, at(0x4400), Budget::MOST);
    assert_eq!(stop.map(|s| (s.end, s.steps)), Ok((End::Address, 0)));
    let stop = machine.run_to(&mut memory, &none, &silent, at(0x4402), Budget::MOST);
    assert_eq!(stop.map(|s| (s.end, s.steps)), Ok((End::Clock, 1)));
    assert_eq!((machine.clock(), machine.pc()), (LAST_CLOCK + 1, 0x4402));
    let before = (machine.clone(), memory.clone());
    for address in [0x4402, 0x4500] {
        let stop = machine.run_to(&mut memory, &none, &silent, at(address), Budget::MOST);
        assert_eq!(stop, Err(Refusal::Clock));
    }
    assert_eq!((machine, memory), before);
}

#[test]
fn second_words_are_not_met() {
    for address in [0x4402, 0x4406, 0x8004] {
        let mut setup = paper_setup();
        let mut machine = setup.start();
        let stop = run_to(&mut setup, &mut machine, address, 20);
        assert_eq!((stop, machine.clock()), ((End::Halted, 7), 27));
    }
}

// Where a sheet's machine stands at its start and after each step, by the transcript that the model wrote.
struct Course {
    pcs: Vec<u16>,
    clocks: Vec<u64>,
    end: String,
}

impl Course {
    fn of(name: &str, start: &Machine) -> Course {
        let transcript = model_transcript(name);
        let (mut pcs, mut clocks, mut end) = (vec![start.pc()], vec![0], String::new());
        for line in transcript.lines().skip(1) {
            match line.split('\t').collect::<Vec<_>>()[..] {
                [_, _, clock, pc, _] => {
                    pcs.push(u16::from_str_radix(pc, 16).unwrap());
                    clocks.push(clock.parse().unwrap());
                }
                [letter, _, _] => letter.clone_into(&mut end),
                _ => panic!("{name}: {line}"),
            }
        }
        Course { pcs, clocks, end }
    }

    fn steps(&self) -> u64 {
        self.pcs.len() as u64 - 1
    }

    // After how many steps pc is each address; a machine that has halted is at none.
    fn landmarks(&self) -> BTreeMap<u16, Vec<u64>> {
        let mut landmarks: BTreeMap<u16, Vec<u64>> = BTreeMap::new();
        for (&pc, steps) in self.pcs.iter().zip(0..) {
            if self.end != "H" || steps < self.steps() {
                landmarks.entry(pc).or_default().push(steps);
            }
        }
        landmarks
    }
}

// Runs from one time that pc is the address to the next: after how many steps of the whole run each is.
fn times_met(setup: &mut Setup, machine: &mut Machine, address: u16) -> Vec<(u64, u64)> {
    let (most, mut steps, mut met) = (setup.budget.steps(), 0, Vec::new());
    loop {
        let (end, made) = run_to(setup, machine, address, most - steps);
        steps += made;
        if end != End::Address {
            return met;
        }
        met.push((steps, machine.clock()));
        if steps == most {
            return met;
        }
        let kind = machine.step(&mut setup.memory, &setup.timetable, &setup.trace);
        assert!(kind.is_ok());
        steps += 1;
    }
}

#[test]
fn every_time_on_every_sheet_is_met() {
    let mut met = 0;
    for name in worked_sheets() {
        let sheet = worked_sheet(&name);
        let course = Course::of(&name, &Setup::read(&sheet).unwrap().start());
        for (address, steps) in course.landmarks() {
            let mut setup = Setup::read(&sheet).unwrap();
            let mut machine = setup.start();
            let clocks = steps
                .iter()
                .map(|&n| course.clocks[usize::try_from(n).unwrap()]);
            let told: Vec<_> = steps.iter().copied().zip(clocks).collect();
            let seen = times_met(&mut setup, &mut machine, address);
            assert_eq!(seen, told, "{name}: {address:04X}");
            met += told.len();
        }
    }
    assert!(met > 1000, "{met}");
}

#[test]
fn run_to_an_address_and_on_is_the_run_without() {
    for name in worked_sheets() {
        let sheet = worked_sheet(&name);
        let mut whole = Setup::read(&sheet).unwrap();
        let mut last = whole.start();
        let course = Course::of(&name, &last);
        let (timetable, trace) = (&whole.timetable, &whole.trace);
        let stop = last.run(&mut whole.memory, timetable, trace, whole.budget);
        let Stop { end, steps } = stop.unwrap();
        assert_eq!(
            (end.to_string(), steps),
            (course.end.clone(), course.steps())
        );
        for address in course.landmarks().into_keys() {
            let mut setup = Setup::read(&sheet).unwrap();
            let mut machine = setup.start();
            let most = setup.budget.steps();
            let (_, made) = run_to(&mut setup, &mut machine, address, most);
            let (timetable, trace) = (&setup.timetable, &setup.trace);
            let on = machine.run(&mut setup.memory, timetable, trace, budget(most - made));
            assert_eq!(on.map(|s| (s.end, made + s.steps)), Ok((end, steps)));
            assert!(
                machine == last && setup.memory == whole.memory,
                "{name}: {address:04X}"
            );
        }
    }
}

#[test]
fn address_that_is_not_met_changes_nothing() {
    for name in worked_sheets() {
        let sheet = worked_sheet(&name);
        let (mut plain, mut setup) = (Setup::read(&sheet).unwrap(), Setup::read(&sheet).unwrap());
        let (mut without, mut machine) = (plain.start(), setup.start());
        let course = Course::of(&name, &machine);
        let free = (0..=0xFFFE)
            .step_by(2)
            .find(|address| !course.pcs.contains(address));
        let (timetable, trace) = (&plain.timetable, &plain.trace);
        let stop = without.run(&mut plain.memory, timetable, trace, plain.budget);
        let most = setup.budget.steps();
        let stopped = run_to(&mut setup, &mut machine, free.unwrap(), most);
        assert_eq!(stop.map(|s| (s.end, s.steps)), Ok(stopped), "{name}");
        assert!((machine, setup.memory) == (without, plain.memory), "{name}");
    }
}
