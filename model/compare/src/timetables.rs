//! Random timetables: dense, sparse, in close pairs, full; some break a rule.

use crate::random::Random;
use crate::subject::CLOCK_LIMIT;

/// A timetable that is taken, with its first stamps soon after a clock value.
pub fn taken(random: &mut Random, clock: u64) -> Vec<u64> {
    let count = match random.below(12) {
        0 => 0,
        1 => 1,
        2 => random.between(1000, 4096),
        3 if random.one_in(8) => 4096,
        _ => random.between(2, 200),
    };
    let style = random.below(6);
    let mut stamps = Vec::new();
    let mut stamp = clock.saturating_sub(random.below(20));
    for place in 0..count {
        stamp = stamp.saturating_add(gap(random, style, place));
        if stamp > CLOCK_LIMIT {
            break;
        }
        stamps.push(stamp);
    }
    if random.one_in(16)
        && stamps.last().is_none_or(|&last| last < CLOCK_LIMIT)
        && stamps.len() < 4096
    {
        stamps.push(CLOCK_LIMIT);
    }
    stamps
}

/// Cycles from one stamp to the next.
fn gap(random: &mut Random, style: u64, place: u64) -> u64 {
    match style {
        0 => random.between(1, 30),
        1 => random.between(1, 12),
        2 if place % 2 == 1 => random.between(1, 12),
        3 if place % 2 == 1 => random.between(1, 4),
        2 | 3 => random.between(15, 90),
        4 => random.between(40, 400),
        _ => random.between(10, 60),
    }
}

/// A timetable that breaks a rule: a stamp 0 or above 2^62, one not above the one before it, or
/// 4,097 stamps.
pub fn broken(random: &mut Random, clock: u64) -> Vec<u64> {
    let mut stamps = taken(random, clock);
    let place = random.below(stamps.len() as u64 + 1) as usize;
    let beside = place.checked_sub(1).map(|before| stamps[before]);
    match (random.below(5), beside) {
        (0, Some(stamp)) => stamps.insert(place, stamp),
        (1, Some(stamp)) => stamps.insert(place, stamp - 1),
        (2, _) => stamps.insert(0, 0),
        (3, _) => stamps = (1..=random.pick(&[4097, 4097, 4098, 5000])).collect(),
        _ => stamps.push(random.pick(&[CLOCK_LIMIT + 1, CLOCK_LIMIT + 1, u64::MAX, 0])),
    }
    stamps
}
