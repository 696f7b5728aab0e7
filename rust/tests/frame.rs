//! The frame of a restored machine: what no machine can be in is refused as 4.

mod support;

use std::num::NonZeroU64;
use std::thread;

use enclave::{Layout, Machine, MachineFields, Refusal, SavedContext};
use support::raw::Lent;
use support::{fields_at, paper_layout, paper_setup};

// The fields of document 01's machine after four steps, while a visit is held.
fn held_fields() -> MachineFields {
    let mut setup = paper_setup();
    let mut machine = setup.start();
    for _ in 0..4 {
        machine
            .step(&mut setup.memory, &setup.timetable, &setup.trace)
            .unwrap();
    }
    machine.fields()
}

// From good fields, this edit makes fields that are refused.
fn refused(mut fields: MachineFields, edit: impl Fn(&mut MachineFields)) {
    assert!(Machine::from_fields(paper_layout(), &fields).is_ok());
    edit(&mut fields);
    let machine = Machine::from_fields(paper_layout(), &fields);
    assert_eq!(machine, Err(Refusal::Frame));
}

// The same for the saved context of a held visit.
fn context_refused(edit: impl Fn(&mut SavedContext)) {
    refused(held_fields(), |fields| edit(fields.held.as_mut().unwrap()));
}

#[test]
fn every_machine_of_a_run_is_restored() {
    let mut setup = paper_setup();
    let mut machine = setup.start();
    while !machine.is_halted() {
        let restored = Machine::from_fields(paper_layout(), &machine.fields());
        assert_eq!(restored.as_ref(), Ok(&machine));
        machine
            .step(&mut setup.memory, &setup.timetable, &setup.trace)
            .unwrap();
    }
    let restored = Machine::from_fields(paper_layout(), &machine.fields());
    assert_eq!(restored, Ok(machine));
}

#[test]
fn restored_machine_goes_on_alike() {
    let mut setup = paper_setup();
    let mut machine = setup.start();
    for _ in 0..4 {
        machine
            .step(&mut setup.memory, &setup.timetable, &setup.trace)
            .unwrap();
    }
    let mut restored = Machine::from_fields(paper_layout(), &machine.fields()).unwrap();
    let mut memory = setup.memory.clone();
    let ends = (
        machine.run(
            &mut setup.memory,
            &setup.timetable,
            &setup.trace,
            setup.budget,
        ),
        restored.run(&mut memory, &setup.timetable, &setup.trace, setup.budget),
    );
    assert_eq!(ends.0, ends.1);
    assert_eq!((machine, setup.memory), (restored, memory));
}

#[test]
fn machine_is_restored_on_a_small_stack() {
    let fields = held_fields();
    let small = thread::Builder::new().stack_size(48 * 1024);
    let restored = small.spawn(move || Machine::from_fields(paper_layout(), &fields).is_ok());
    assert!(restored.unwrap().join().unwrap());
}

#[test]
fn odd_addresses_and_r3() {
    refused(fields_at(0x4400), |f| f.registers[0] = 0x4401);
    refused(fields_at(0x4400), |f| f.registers[1] = 1);
    refused(fields_at(0x4400), |f| f.registers[3] = 1);
    refused(fields_at(0x4400), |f| f.previous = 0x4401);
}

#[test]
fn pending_and_alarm_beside_the_clock() {
    let at = |fields: &mut MachineFields| fields.clock = 100;
    refused(fields_at(0x4400), |f| {
        at(f);
        f.pending = NonZeroU64::new(101);
    });
    refused(fields_at(0x4400), |f| {
        at(f);
        f.alarm = NonZeroU64::new(100);
    });
    let mut fields = fields_at(0x4400);
    at(&mut fields);
    fields.pending = NonZeroU64::new(100);
    fields.alarm = NonZeroU64::new(101);
    let machine = Machine::from_fields(paper_layout(), &fields).unwrap();
    assert_eq!(
        (machine.pending(), machine.alarm()),
        (fields.pending, fields.alarm)
    );
}

#[test]
fn saved_context() {
    context_refused(|c| c.age = 7);
    context_refused(|c| c.age = 255);
    context_refused(|c| c.registers[0] = 0x8001);
    context_refused(|c| c.registers[1] = 1);
    context_refused(|c| c.registers[2] = 0);
    context_refused(|c| c.registers[3] = 1);
    context_refused(|c| c.previous = 0x4400);
    context_refused(|c| c.previous = 0x8001);
}

#[test]
fn held_visit_belongs_to_its_layout() {
    let elsewhere = Layout::new(0x9000..0x9008, 0x8100..0x8104, 0x4500).unwrap();
    let machine = Machine::from_fields(elsewhere, &held_fields());
    assert_eq!(machine, Err(Refusal::Frame));
}

// A raw machine that holds a visit.
fn held_lent() -> Lent {
    let mut lent = Lent::fresh();
    lent.machine.saved[2] = 8;
    lent.machine.control[2..].copy_from_slice(&[1, 0x8002, 6]);
    lent.steps();
    lent
}

#[test]
fn halted_is_0_or_1() {
    for value in [2, 0x100, 0x101, 0xFFFF] {
        for mut lent in [Lent::fresh(), held_lent()] {
            lent.machine.control[1] = value;
            lent.refused(4);
        }
    }
}

#[test]
fn held_is_0_or_1() {
    for value in [2, 0x100, 0x101, 0xFFFF] {
        for mut lent in [Lent::fresh(), held_lent()] {
            lent.machine.control[2] = value;
            lent.refused(4);
        }
    }
}

#[test]
fn held_age_is_0_to_6() {
    for value in [7, 255, 256, 0x0106, 0xFFFF] {
        let mut lent = held_lent();
        lent.machine.control[4] = value;
        lent.refused(4);
    }
}

#[test]
fn fields_of_no_visit_are_not_looked_at() {
    let mut lent = Lent::fresh();
    lent.machine.saved = [0xFFFF; 16];
    lent.machine.control[3..].copy_from_slice(&[0xFFFF, 0xFFFF]);
    assert_eq!(lent.step(), 0);
    assert_eq!(
        (lent.machine.saved, &lent.machine.control[2..]),
        ([0; 16], &[0, 0, 0][..])
    );
}

// Nothing is held, and the fields of a held visit are noise, before a call that makes no step.
fn noisy(halted: u16) -> Lent {
    let mut lent = Lent::fresh();
    lent.machine.saved = [0xFFFF; 16];
    lent.machine.control[1..].copy_from_slice(&[halted, 0, 0xFFFF, 0xFFFF]);
    lent.budget = 0;
    lent
}

// Of the machine, such a call alters only the held previous address and the held age, which become 0.
fn only_control_settles(call: fn(&mut Lent) -> u8, halted: u16) {
    let mut lent = noisy(halted);
    let mut settled = lent.machine.clone();
    settled.control[3..].copy_from_slice(&[0, 0]);
    assert_eq!((call(&mut lent), &lent.machine), (0, &settled));
}

#[test]
fn call_without_a_step_keeps_the_saved_registers() {
    only_control_settles(Lent::step, 1);
    only_control_settles(Lent::run, 1);
    only_control_settles(Lent::run, 0);
    only_control_settles(Lent::run_to, 1);
    only_control_settles(Lent::run_to, 0);
}

#[test]
fn run_at_its_stop_address_keeps_the_saved_registers() {
    let at_the_address = |lent: &mut Lent| {
        (lent.stop, lent.budget) = (0x4400, 20);
        let answer = lent.run_to();
        assert_eq!((lent.end, lent.steps), (b'A', 0));
        answer
    };
    only_control_settles(at_the_address, 0);
}

#[test]
fn refused_call_keeps_the_fields_of_no_visit() {
    let mut lent = noisy(0);
    lent.machine.registers[3] = 1;
    lent.refused(4);
}
