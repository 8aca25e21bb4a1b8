//! The benchmark that ./compare/speed runs: each row's work on both sides in turns, in one process. Where the sides' answers
//! differ it stops.

mod clock;
#[cfg(inner)]
mod inner;
mod library;
mod processor_time;
mod records;
mod rows;
mod states;
mod table;

use std::process::ExitCode;
use std::thread;

/// Trees are walked by recursion, so the rows run on a large stack.
const STACK: usize = 1 << 29;

fn main() -> ExitCode {
    let rows = thread::Builder::new().stack_size(STACK).spawn(print_table).expect("a thread with a large stack");
    rows.join().unwrap_or(ExitCode::FAILURE)
}

fn print_table() -> ExitCode {
    table::print_head();
    for row in rows::all() {
        if !row.agrees() {
            eprintln!("The sides' answers differ: {}", row.name());
            return ExitCode::FAILURE;
        }
        table::print_row(&*row, &clock::measure(&*row));
    }
    ExitCode::SUCCESS
}
