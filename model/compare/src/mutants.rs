//! Tries the comparison on the mutants: it is known to see if it finds a difference for each of
//! them.

use crate::counts::Counts;
use crate::drive::{drive, Sides};
use crate::random::Random;
use crate::secrecy::Pair;
use crate::subject::Subject;
use crate::subjects::MUTANTS;
use crate::world::World;
use crate::{executed, library, questions, reading};

/// As many worlds, sheets and pairs are tried at most.
const MOST: u64 = 6000;

/// Mutants that break a law: the test of the laws must see each, as a machine by itself.
const UNLAWFUL: [&str; 22] = [
    "no_return_padding",
    "chaining_looks_at_gie",
    "gie_writable_inside",
    "alarm_loses_to_later_stamp",
    "record_at_the_clock_left_out",
    "next_record_read",
    "clock_read_beside_a_trace",
    "words_by_the_timetables_place",
    "records_ring_no_request",
    "record_wins_over_earlier_stamp",
    "step_made_at_the_address",
    "step_at_the_address_not_counted",
    "address_counted_as_a_step",
    "spent_before_address",
    "budget_0_spent_at_the_address",
    "address_before_halted",
    "address_not_tested_before_the_first_step",
    "address_tested_every_other_step",
    "previous_address_compared",
    "second_words_address_compared",
    "second_word_met_too",
    "service_and_reset_pass_the_address",
];

/// Mutants that tell a secret: the test of secrecy must see each, as a machine by itself.
const TELLING: [&str; 3] = [
    "slot_emptied_before_wait",
    "no_return_padding",
    "gie_writable_inside",
];

/// Mutants that misread words: the counts of first words by one side's answers, and the execution of
/// every first word, must see each, but for those below.
const MISREADING: [&str; 26] = [
    "nop_read_as_mov",
    "jmp_read_as_mov",
    "mov_from_r3_read_as_nop",
    "mov_to_r3_read_as_nop",
    "mov_with_r3_left_out",
    "group_4_with_d_0_only_jumps",
    "pointed_by_r0_taken",
    "pointed_by_r2_taken",
    "pointed_by_r3_taken",
    "store_to_r0_taken",
    "store_to_r2_taken",
    "store_to_r3_taken",
    "pointed_and_store_leave_out_the_other",
    "constant_with_any_second_digit_taken",
    "group_5_read_as_pointed",
    "add_with_third_digit_1_taken",
    "add_to_r0_left_out",
    "word_0000_read_as_hlt",
    "rest_of_group_0_read_as_hlt",
    "in_with_any_second_digit_taken",
    "jz_by_r0_left_out",
    "reti_with_any_last_digit_taken",
    "not_with_any_second_digit_taken",
    "not_with_any_second_word_taken",
    "store_with_any_second_word_taken",
    "wrong_second_word_told_as_a_first",
];

/// They take as many first words in each row.
const SAME_COUNTS: [&str; 4] = [
    "pointed_and_store_leave_out_the_other",
    "not_with_any_second_word_taken",
    "store_with_any_second_word_taken",
    "wrong_second_word_told_as_a_first",
];

/// Their words do the same by another name: what is moved into r3 is lost.
const SAME_STEPS: [&str; 2] = ["nop_read_as_mov", "mov_to_r3_read_as_nop"];

/// Tries every mutant; a line for each. The error names those that were not seen.
pub fn mutants(seed: u64) -> Result<String, String> {
    let places = ["comparison", "laws", "secrecy", "counts", "execution"];
    let mut text = line("mutant, where it was seen", places);
    let mut survivors = Vec::new();
    for (name, mutant) in MUTANTS {
        let seen = seen(seed, name, mutant);
        let told = seen.each_ref().map(|place| match place {
            None => "",
            Some(None) => "not seen",
            Some(Some(place)) => place,
        });
        text += &line(name, told);
        if seen.contains(&Some(None)) {
            survivors.push(*name);
        }
    }
    if survivors.is_empty() {
        Ok(text)
    } else {
        Err(format!(
            "{text}mutants that were not seen: {}",
            survivors.join(", ")
        ))
    }
}

/// A mutant's line of the table.
fn line(name: &str, told: [&str; 5]) -> String {
    let [comparison, laws, secrecy, counts, execution] = told;
    let line =
        format!("{name:<42} {comparison:<12} {laws:<12} {secrecy:<12} {counts:<12} {execution}");
    format!("{}\n", line.trim_end())
}

/// Where the comparison and each test by itself sees a mutant; nothing for a test that is not asked.
fn seen(seed: u64, name: &str, mutant: &'static Subject) -> [Option<Option<String>>; 5] {
    let asked = |list: &[&str]| list.contains(&name);
    let counted = asked(&MISREADING) && !asked(&SAME_COUNTS);
    let executed = asked(&MISREADING) && !asked(&SAME_STEPS);
    [
        Some(first_difference(seed, mutant)),
        asked(&UNLAWFUL).then(|| first_unlawful(seed, mutant)),
        asked(&TELLING).then(|| first_telling(seed, mutant)),
        counted.then(|| miscount(seed, mutant)),
        executed.then(|| first_misdone(seed, mutant)),
    ]
}

/// Where the comparison of the library with a mutant finds the first difference.
fn first_difference(seed: u64, mutant: &'static Subject) -> Option<String> {
    let sides = Sides {
        library: &library::LIBRARY,
        model: mutant,
    };
    let counts = &mut Counts::new();
    if questions::all(sides, &mut Random::new(seed, 0), counts, 100).is_err() {
        return Some("a question".into());
    }
    for index in 0..MOST {
        if drive(sides, &World::new(seed, index), counts).is_err() {
            return Some(format!("world {index}"));
        }
        if reading::read(sides, seed, index, counts).is_err() {
            return Some(format!("sheet {index}"));
        }
    }
    None
}

/// Whether the counts of first words are wrong where both sides are the mutant.
fn miscount(seed: u64, mutant: &'static Subject) -> Option<String> {
    let sides = Sides {
        library: mutant,
        model: mutant,
    };
    let read = questions::reading(sides, &mut Random::new(seed, 0), &mut Counts::new());
    read.is_err().then(|| "a count".into())
}

/// The first word whose execution by a mutant is not the library's.
fn first_misdone(seed: u64, mutant: &'static Subject) -> Option<String> {
    let sides = Sides {
        library: &library::LIBRARY,
        model: mutant,
    };
    let executed = executed::all(sides, &mut Random::new(seed, 0), &mut Counts::new());
    let text = executed.err()?;
    text.split(':').next().map(String::from)
}

/// The first pair of runs of a mutant that breaks a law.
fn first_unlawful(seed: u64, mutant: &Subject) -> Option<String> {
    first_pair(seed, |pair, counts| {
        pair.laws(mutant, &pair.runs(mutant)?, counts)
    })
}

/// The first pair of runs of a mutant that tells a secret.
fn first_telling(seed: u64, mutant: &Subject) -> Option<String> {
    first_pair(seed, |pair, counts| {
        pair.secrecy(&pair.runs(mutant)?, counts)
    })
}

/// The first pair of which a test does not hold.
fn first_pair(
    seed: u64,
    test: impl Fn(&Pair, &mut Counts) -> Result<(), String>,
) -> Option<String> {
    let counts = &mut Counts::new();
    let found = (0..MOST).find(|&index| test(&Pair::new(seed, index), counts).is_err());
    found.map(|index| format!("pair {index}"))
}
