//! The lines of the tables.

use crate::before::Side;
use crate::measure::Row;

pub fn heading() -> String {
    let (what, library, model) = ("what", "library ns", "model ns");
    format!("{what:<50}{library:>12}{model:>12}{:>9}", "ratio")
}

/// A row; its ratio is above 1 where the library is faster.
pub fn line(row: &Row) -> String {
    let ratio = row.model / row.library;
    format!(
        "{:<50}{:>12.2}{:>12.2}{ratio:>9.2}",
        row.what, row.library, row.model
    )
}

pub fn compared_heading() -> String {
    let [before, after] = ["before", "after"].map(|side| format!("{side} ns"));
    let [counted_before, counted_after] = ["before", "after"].map(|side| format!("{side} instr"));
    compared("what", [&before, &after, &counted_before, &counted_after])
}

/// A row of one archive beside another: the times at the best and at the worst place.
pub fn compared_line(what: &str, before: &Side, after: &Side) -> String {
    let times = |side: &Side| format!("{:.2} to {:.2}", side.best, side.worst);
    let instructions = |side: &Side| match side.instructions {
        Some(number) => format!("{number:.1}"),
        None => "-".into(),
    };
    compared(
        what,
        [
            &times(before),
            &times(after),
            &instructions(before),
            &instructions(after),
        ],
    )
}

fn compared(what: &str, [before, after, counted_before, counted_after]: [&str; 4]) -> String {
    format!("{what:<46}{before:>18}{after:>18}{counted_before:>14}{counted_after:>14}")
}
