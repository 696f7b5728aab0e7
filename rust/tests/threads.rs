//! Many machines at once: the types may go to other threads, and run there as they do alone.

mod support;

use std::thread;

use enclave::{
    Budget, Cause, End, Instruction, Kind, Layout, Machine, MachineFields, Memory, Refusal,
    Register, Rights, Setup, SheetRefusal, Stop, StopAddress, Timetable, Trace, Transcript,
};
use support::worked_sheet;

fn goes_to_threads<T: Send + Sync>() {}

#[test]
fn types_are_send_and_sync() {
    goes_to_threads::<(Machine, Memory, Layout, Timetable<'_>, Budget)>();
    goes_to_threads::<(Trace<'_>, Transcript<'_>)>();
    goes_to_threads::<(
        MachineFields,
        Setup,
        SheetRefusal,
        Stop,
        StopAddress,
        Rights,
    )>();
    goes_to_threads::<(Kind, Cause, End, Refusal, Instruction, Register)>();
}

// Runs a sheet whole and tells how it ended.
fn finished(sheet: &[u8]) -> (Stop, Machine, Memory) {
    let mut setup = Setup::read(sheet).unwrap();
    let mut machine = setup.start();
    let stop = machine.run(
        &mut setup.memory,
        &setup.timetable,
        &setup.trace,
        setup.budget,
    );
    (stop.unwrap(), machine, setup.memory)
}

#[test]
fn machines_in_threads_run_as_alone() {
    let names = [
        "document-01",
        "chained",
        "nested",
        "password-right",
        "password-wrong",
        "reset-8",
    ];
    let sheets = names.map(worked_sheet);
    let alone = sheets.each_ref().map(|sheet| finished(sheet));
    thread::scope(|scope| {
        for turn in 0..8 {
            let (sheets, alone) = (&sheets, &alone);
            scope.spawn(move || {
                for n in 0..120 {
                    let which = (turn + n) % sheets.len();
                    assert!(finished(&sheets[which]) == alone[which]);
                }
            });
        }
    });
}

#[test]
fn machine_goes_on_in_another_thread() {
    let mut setup = Setup::read(&worked_sheet("document-01")).unwrap();
    let mut machine = setup.start();
    machine
        .step(&mut setup.memory, &setup.timetable, &setup.trace)
        .unwrap();
    let other = thread::spawn(move || {
        let stop = machine.run(
            &mut setup.memory,
            &setup.timetable,
            &setup.trace,
            setup.budget,
        );
        (stop.unwrap().steps, machine.clock())
    });
    assert_eq!(other.join().unwrap(), (6, 27));
}
