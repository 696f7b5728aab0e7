//! Random ride traces: many without a record; some stamps of the timetable, records close to the
//! clock, all of them far ahead, full ones; some break a rule.

use crate::random::Random;
use crate::scene::Scene;
use crate::subject::{Records, CLOCK_LIMIT};
use crate::timetables;

/// A ride trace: stamps and words.
#[derive(Clone, Debug, Default, PartialEq, Eq)]
pub struct Ride {
    pub stamps: Vec<u64>,
    pub words: Vec<u16>,
}

impl Ride {
    pub fn lent(&self) -> Records<'_> {
        Records {
            stamps: &self.stamps,
            words: &self.words,
        }
    }

    /// Keeps so many records at most.
    pub fn truncate(&mut self, most: usize) {
        self.stamps.truncate(most);
        self.words.truncate(most);
    }
}

/// A ride trace that is taken, for a clock value and beside a timetable.
pub fn taken(random: &mut Random, scene: &Scene, clock: u64, timetable: &[u64]) -> Ride {
    let stamps = match random.below(12) {
        0..=4 => Vec::new(),
        5 => timetable.to_vec(),
        6 | 7 => among(random, timetable),
        8 => close(random, clock),
        9 => ahead(random, clock),
        10 if random.one_in(12) => (1..=4096).map(|step| clock.min(1 << 61) + step).collect(),
        _ => timetables::taken(random, clock),
    };
    with_words(random, scene, stamps)
}

fn with_words(random: &mut Random, scene: &Scene, stamps: Vec<u64>) -> Ride {
    let words = stamps.iter().map(|_| word(random, scene)).collect();
    Ride { stamps, words }
}

/// A word for IN: a place to go, a small number for OUT, a status, noise.
fn word(random: &mut Random, scene: &Scene) -> u16 {
    match random.below(5) {
        0 => scene.spot(random),
        1 => random.below(40) as u16,
        2 => random.pick(&[0, 8, 0xFFFF]),
        _ => random.word(),
    }
}

/// Some stamps of a timetable, with others between them.
fn among(random: &mut Random, timetable: &[u64]) -> Vec<u64> {
    let mut stamps = Vec::new();
    for &stamp in timetable {
        if !random.one_in(3) {
            stamps.push(stamp);
        }
        if random.one_in(3) {
            stamps.push(stamp.saturating_add(random.between(1, 6)).min(CLOCK_LIMIT));
        }
    }
    rising(stamps)
}

/// A few records around a clock value, one right after another here and there.
fn close(random: &mut Random, clock: u64) -> Vec<u64> {
    let first = clock.min(CLOCK_LIMIT).saturating_sub(random.below(12));
    let count = random.between(1, 12);
    let stamps = (0..count).map(|_| (first + random.below(40)).min(CLOCK_LIMIT));
    rising(stamps.collect())
}

/// All records far above a clock value, which most runs do not get to.
fn ahead(random: &mut Random, clock: u64) -> Vec<u64> {
    let from = clock.min(1 << 61) + 100_000;
    let stamps = (0..random.between(1, 9)).map(|_| from + random.below(1 << 40));
    let mut stamps = rising(stamps.collect());
    if random.one_in(4) {
        stamps.push(CLOCK_LIMIT);
    }
    stamps
}

/// What of a list can be the stamps of a trace.
fn rising(mut stamps: Vec<u64>) -> Vec<u64> {
    stamps.retain(|stamp| (1..=CLOCK_LIMIT).contains(stamp));
    stamps.sort_unstable();
    stamps.dedup();
    stamps.truncate(4096);
    stamps
}

/// The ways to break a trace.
pub const WAYS: [&str; 8] = [
    "a word fewer than stamps",
    "a word more than stamps",
    "words and no stamp",
    "more than 4,096 records",
    "stamp 0",
    "stamp above 2^62",
    "two equal stamps",
    "falling stamps",
];

/// A trace that is broken in one way, and is taken otherwise.
pub fn broken(random: &mut Random, scene: &Scene, clock: u64, way: usize) -> Ride {
    let mut stamps = close(random, clock.max(20));
    match way {
        3 => stamps = (1..=random.pick(&[4097, 4097, 4098, 5000])).collect(),
        4 => stamps.insert(0, 0),
        5 => stamps.push(random.pick(&[CLOCK_LIMIT + 1, CLOCK_LIMIT + 1, u64::MAX])),
        6 => stamps.extend(stamps.last().copied()),
        7 => stamps.extend(stamps.last().map(|last| last - 1)),
        _ => {}
    }
    let mut ride = with_words(random, scene, stamps);
    match way {
        0 => drop(ride.words.pop()),
        1 => ride.words.push(word(random, scene)),
        2 => ride.stamps.clear(),
        _ => {}
    }
    ride
}
