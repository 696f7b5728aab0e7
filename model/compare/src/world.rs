//! A world: a scene with its memory, timetable, ride trace and state, and the list of calls that is
//! made on it.

use crate::aims::{self, Aim};
use crate::calm;
use crate::frames;
use crate::layouts;
use crate::random::Random;
use crate::rides::{self, Ride};
use crate::scene::{self, Scene};
use crate::subject::{put_word, State, CLOCK_LIMIT, MEMORY_BYTES};
use crate::timetables;

/// What a world begins with.
#[derive(Clone, Debug)]
pub enum Begin {
    Start,
    Invented(State),
}

/// A step, a run with its budget, or a run with its stop address and its budget.
#[derive(Clone, Copy, Debug)]
pub enum Act {
    Step,
    Run(u64),
    RunTo(Aim, u64),
}

/// What is wrong with a call, or altered for it.
#[derive(Clone, Debug)]
pub enum Twist {
    None,
    /// Memory of another size is lent.
    Size(usize),
    /// Another layout.
    Layout([u16; 5]),
    /// Another timetable.
    Stamps(Vec<u64>),
    /// Another ride trace.
    Ride(Ride),
    /// A ride trace that is broken in one way.
    BrokenRide(usize, Ride),
    /// The frame is broken in one way, by the random numbers of a seed.
    Fault(usize, u64),
    /// A state that only a caller could invent.
    State(State),
    /// A clock above 2^62, and no alarm.
    Late(u64),
}

#[derive(Clone, Debug)]
pub struct Call {
    pub act: Act,
    /// More than one thing may be wrong: the first in the order of the tests is told.
    pub twists: Vec<Twist>,
}

pub struct World {
    pub scene: Scene,
    pub memory: Vec<u8>,
    pub stamps: Vec<u64>,
    pub ride: Ride,
    pub begin: Begin,
    pub calls: Vec<Call>,
}

impl World {
    /// The world of a seed and an index.
    pub fn new(seed: u64, index: u64) -> World {
        let mut random = Random::new(seed, index);
        let calm = random.one_in(3);
        let (scene, mut memory) = if calm {
            calm::world(&mut random)
        } else {
            wild(&mut random)
        };
        if random.one_in(4) {
            damage(&mut random, &scene, &mut memory);
        }
        let begin = match random.below(5) {
            0 | 1 => Begin::Invented(frames::invented(&mut random, &scene)),
            _ => Begin::Start,
        };
        let clock = match &begin {
            Begin::Start => 0,
            Begin::Invented(state) => state.clock,
        };
        let stamps = timetables::taken(&mut random, clock);
        let ride = rides::taken(&mut random, &scene, clock, &stamps);
        let calls = calls(&mut random, &scene, clock);
        World {
            scene,
            memory,
            stamps,
            ride,
            begin,
            calls,
        }
    }
}

/// Any programs.
fn wild(random: &mut Random) -> (Scene, Vec<u8>) {
    let scene = Scene::new(random);
    let filled = !random.one_in(4);
    let memory = scene::memory(random, &scene, filled);
    (scene, memory)
}

/// Puts noise into the programs.
fn damage(random: &mut Random, scene: &Scene, memory: &mut [u8]) {
    for _ in 0..random.between(1, 8) {
        let base = random.pick(&[
            scene.main,
            scene.back,
            scene.service(),
            scene.entry(),
            scene.entry(),
        ]);
        let address = base.wrapping_add(2 * random.below(24) as u16);
        let word = match random.below(3) {
            0 => random.word(),
            1 => random.pick(&[0x0001, 0x0014, 0x0024, 0x1300, 0x4030, 0x4585, 0xE035]),
            _ => scene.spot(random),
        };
        put_word(memory, address, word);
    }
}

/// A list of calls; few are refused. Some lists are long and of steps only.
fn calls(random: &mut Random, scene: &Scene, clock: u64) -> Vec<Call> {
    if random.one_in(8) {
        let step = Call {
            act: Act::Step,
            twists: Vec::new(),
        };
        return vec![step; random.between(300, 1200) as usize];
    }
    let count = random.between(4, 60);
    let mut calls = Vec::new();
    for _ in 0..count {
        let act = act(random, scene);
        let often = matches!(act, Act::RunTo(aim, _) if aim.odd);
        let twists = twists(random, scene, clock, if often { 2 } else { 12 });
        calls.push(Call { act, twists });
        // Some stop at the same address again.
        if matches!(act, Act::RunTo(..)) && random.one_in(6) {
            calls.push(Call {
                act: Act::RunTo(Aim::HERE, random.between(0, 9)),
                twists: Vec::new(),
            });
        }
    }
    calls
}

fn act(random: &mut Random, scene: &Scene) -> Act {
    if !random.one_in(3) {
        return Act::Step;
    }
    if random.one_in(2) {
        let (aim, budget) = Aim::new(random, scene);
        return Act::RunTo(aim, budget);
    }
    Act::Run(aims::budget(random))
}

/// What is wrong with a call, once in so many calls.
fn twists(random: &mut Random, scene: &Scene, clock: u64, seldom: u64) -> Vec<Twist> {
    if !random.one_in(seldom) {
        return Vec::new();
    }
    let mut twists = vec![twist(random, scene, clock)];
    while random.one_in(4) {
        twists.push(twist(random, scene, clock));
    }
    twists
}

fn twist(random: &mut Random, scene: &Scene, clock: u64) -> Twist {
    match random.below(16) {
        0 => Twist::Size(random.pick(&[
            0,
            1,
            2,
            32_768,
            MEMORY_BYTES - 1,
            MEMORY_BYTES - 2,
            MEMORY_BYTES + 1,
        ])),
        1 => Twist::Layout(layouts::broken(random)),
        2 => Twist::Stamps(timetables::broken(random, clock)),
        3 => Twist::Stamps(timetables::taken(random, clock)),
        4 | 5 => Twist::State(frames::invented(random, scene)),
        6 if random.one_in(4) => Twist::Layout(layouts::taken(random)),
        6 => Twist::None,
        7 | 8 => {
            let way = random.below(rides::WAYS.len() as u64) as usize;
            Twist::BrokenRide(way, rides::broken(random, scene, clock, way))
        }
        9 => Twist::Ride(rides::taken(random, scene, clock, &[])),
        10 => Twist::Late(random.pick(&[CLOCK_LIMIT + 1, CLOCK_LIMIT + 23, u64::MAX])),
        _ => Twist::Fault(
            random.below(frames::FAULTS.len() as u64) as usize,
            random.next(),
        ),
    }
}
