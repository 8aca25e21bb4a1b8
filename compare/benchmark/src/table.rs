//! The table that is printed: a line a row, in Markdown.

use crate::clock::{Measured, Spread, Times};
use crate::rows::Row;

/// What stands where a row has no such side.
const NONE: &str = "-";

/// The columns. The inner functions have theirs only where the archive with them is linked.
const COLUMNS: &[&str] = if cfg!(inner) {
    &["row", "what is done", "Rust", "ours", "ours, inner", "ours / Rust", "inner / Rust", "rounds"]
} else {
    &["row", "what is done", "Rust", "ours", "ours / Rust", "rounds"]
};

pub fn print_head() {
    print_cells(COLUMNS.iter().map(|name| name.to_string()));
    println!("|{}", "---|".repeat(COLUMNS.len()));
}

pub fn print_row(row: &dyn Row, measured: &Measured) {
    let Measured { rust, exported, inner, rounds } = measured;
    let mut cells = vec![row.name().to_string(), row.what().to_string(), time(rust), time(exported)];
    if cfg!(inner) {
        cells.push(time(inner));
    }
    cells.push(ratio(exported, rust));
    if cfg!(inner) {
        cells.push(ratio(inner, rust));
    }
    cells.push(rounds.to_string());
    print_cells(cells.into_iter());
}

fn print_cells(cells: impl Iterator<Item = String>) {
    println!("| {} |", cells.collect::<Vec<_>>().join(" | "));
}

/// The middle of a side's times, with three digits that count.
fn time(times: &Option<Times>) -> String {
    times.as_ref().map_or(NONE.to_string(), |times| in_units(times.middle()))
}

fn in_units(seconds: f64) -> String {
    let (number, unit) = match seconds {
        ..1e-6 => (seconds * 1e9, "ns"),
        ..1e-3 => (seconds * 1e6, "µs"),
        ..1.0 => (seconds * 1e3, "ms"),
        _ => (seconds, "s"),
    };
    format!("{} {unit}", three_digits(number))
}

/// The middle of the ratios, and in brackets the lowest and the highest.
fn ratio(ours: &Option<Times>, theirs: &Option<Times>) -> String {
    let (Some(ours), Some(theirs)) = (ours, theirs) else { return NONE.to_string() };
    let Spread { lowest, middle, highest } = ours.ratio_to(theirs);
    format!("{} ({} to {})", three_digits(middle), three_digits(lowest), three_digits(highest))
}

fn three_digits(number: f64) -> String {
    let whole_digits = number.abs().max(1e-9).log10().floor() as i32;
    format!("{number:.*}", (2 - whole_digits).max(0) as usize)
}
