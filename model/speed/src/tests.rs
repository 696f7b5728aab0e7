//! That the lists and programs are what they are said to be, by the model, and that library and model agree on them.

use crate::cases::{compared, Work, WHOLE_TURNS};
use crate::library::{Library, Linked};
use crate::measure::round;
use crate::modelled::{self, Modelled};
use crate::programs::{every_row, moves, undecoded, World};
use crate::subject::Subject;
use crate::words::{self, Pair};
use model::{begins, Layout, Machine, Outcome, NO_TRACE, SR, Z};

/// How often each row of the table of instruction words is read.
fn rows(pairs: &[Pair]) -> [usize; 16] {
    let mut counts = [0; 16];
    for &pair in pairs {
        let answer = modelled::read(pair).expect("an instruction");
        counts[usize::from(answer.fields[0])] += 1;
    }
    counts
}

/// How many different registers stand in a field of the answers.
fn registers(pairs: &[Pair], field: usize) -> usize {
    let seen = pairs
        .iter()
        .map(|&pair| modelled::read(pair).expect("an instruction").fields[field]);
    seen.collect::<std::collections::HashSet<u16>>().len()
}

#[test]
fn the_list_of_moves_has_both_rows_alike() {
    let pairs = words::moves();
    let register = |first: u16| first & 0xF0F0 == 0x4000 && first & 0xF != 0 && first != 0x4303;
    let immediate = |first: u16| first & 0xFFF0 == 0x4030;
    assert!(pairs
        .iter()
        .all(|&[first, _]| register(first) || immediate(first)));
    let mut expected = [0; 16];
    (expected[7], expected[10]) = (32_768, 32_768);
    assert_eq!(rows(&pairs), expected);
    assert_eq!([1, 2].map(|field| registers(&pairs, field)), [16, 16]);
}

#[test]
fn the_list_of_all_rows_has_each_alike() {
    let pairs = words::every_row();
    assert_eq!(rows(&pairs), [4_096; 16]);
    assert_eq!([1, 2].map(|field| registers(&pairs, field)), [16, 16]);
}

#[test]
fn the_list_that_does_not_decode_has_each_first_word_once() {
    let mut firsts: Vec<u16> = words::undecoded().iter().map(|pair| pair[0]).collect();
    assert!(firsts.iter().all(|&first| begins(first).is_none()));
    assert!(!firsts.is_sorted());
    firsts.sort_unstable();
    firsts.dedup();
    assert_eq!(firsts.len(), 63_758);
}

#[test]
fn a_list_is_always_the_same() {
    assert_eq!(words::moves(), words::moves());
    assert_eq!(words::every_row(), words::every_row());
    assert_eq!(words::undecoded(), words::undecoded());
}

/// A step of a program: the words at its pc, whether Z was set, what it did, and the clock after it.
struct Stepped {
    pair: Pair,
    zero: bool,
    outcome: Outcome,
    clock: u64,
}

/// So many steps of a program.
fn stepped(program: &[(u16, u16)], steps: usize) -> Vec<Stepped> {
    let world = World::new(program, Vec::new(), 0);
    let (mut memory, layout) = (world.memory, Layout::from(world.layout));
    let mut machine = Machine::start(&memory).expect("start is taken");
    let mut step = || {
        let word = |address| model::read_word(&memory, address);
        let pc = machine.registers[0];
        let pair = [word(pc), word(pc.wrapping_add(2))];
        let zero = machine.registers[SR] & Z != 0;
        let outcome = machine
            .step(&mut memory, &layout, &[], NO_TRACE)
            .expect("a step is taken");
        Stepped {
            pair,
            zero,
            outcome,
            clock: machine.clock,
        }
    };
    (0..steps).map(|_| step()).collect()
}

/// The third turn of a loop of so many steps, behind as many steps before it, and its cycles. Each step just ran.
fn turn(program: &[(u16, u16)], before: usize, steps: usize) -> (Vec<Stepped>, u64) {
    let all = stepped(program, before + 3 * steps);
    assert!(all.iter().all(|step| step.outcome == Outcome::Ran));
    let begun = all[before + 2 * steps - 1].clock;
    let third = all.into_iter().skip(before + 2 * steps);
    let third: Vec<Stepped> = third.collect();
    let cycles = third[steps - 1].clock - begun;
    (third, cycles)
}

#[test]
fn the_loop_of_moves_has_24_and_a_jump() {
    let (steps, cycles) = turn(&moves(), 1, 25);
    let pairs: Vec<Pair> = steps.iter().map(|step| step.pair).collect();
    let mut expected = [0; 16];
    (expected[6], expected[7], expected[10]) = (1, 12, 12);
    assert_eq!((rows(&pairs), cycles), (expected, 38));
    let destination = |&pair: &Pair| modelled::read(pair).expect("an instruction").fields[2];
    assert!(pairs[..24].iter().map(destination).all(|d| d >= 4));
    assert_eq!(pairs[24][0], 0x4600);
}

#[test]
fn the_loop_of_all_rows_has_each_but_hlt() {
    let (steps, cycles) = turn(&every_row(), 4, 16);
    let pairs: Vec<Pair> = steps.iter().map(|step| step.pair).collect();
    let mut expected = [1; 16];
    (expected[0], expected[3]) = (0, 2);
    assert_eq!((rows(&pairs), cycles), (expected, 31));
    let jumps = steps.iter().filter(|step| step.pair[0] == 0x003C);
    let taken: Vec<bool> = jumps.map(|step| step.zero).collect();
    assert_eq!(taken, [true, false]);
}

#[test]
fn each_step_that_does_not_decode_is_a_reset() {
    let steps = stepped(&undecoded(), 10);
    assert!(steps.iter().all(|step| step.outcome == Outcome::Reset(3)));
}

#[test]
fn library_and_model_agree() {
    for case in compared() {
        let case = case.cut(1);
        let agree = round(&Library(Linked), &case).agrees(&round(&Modelled, &case));
        assert!(agree, "{}", case.what);
    }
}

/// Where pc is after so many steps of the model.
fn pc_after(world: &World, steps: u64) -> u16 {
    let mut machine = Modelled.start(world);
    assert_eq!(Modelled.run(&mut machine, world, steps), steps);
    Modelled.last(machine).registers[0]
}

#[test]
fn a_part_is_whole_turns() {
    let worlds = compared().filter_map(|case| match case.work {
        Work::Machine(world, _) if world.stamps.is_empty() => Some(world),
        _ => None,
    });
    let mut seen = 0;
    for world in worlds {
        assert_eq!(
            pc_after(&world, WHOLE_TURNS),
            pc_after(&world, 2 * WHOLE_TURNS)
        );
        seen += 1;
    }
    assert!(seen >= 8);
}
