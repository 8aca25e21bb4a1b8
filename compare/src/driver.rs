//! Runs inputs through one function, from a file, from standard input or many in a row.
//!
//!     PROGRAM FILE      prints the lines of the input in the file
//!     PROGRAM           prints the lines of the input on standard input
//!     PROGRAM --many    many inputs: reads a length (32 bits, little-endian) and as many bytes, again and again;
//!                       writes for each input the length of its lines and the lines
//!
//! An input on which the Rust would take too long is given up: its only line is `too large`.

use std::io::{self, Read, Write};
use std::panic;
use std::thread;

use crate::work;

/// Trees are walked by recursion, so the inputs run on a large stack.
const STACK: usize = 1 << 29;

/// The lines of an input.
type Answer = fn(&[u8]) -> Vec<u8>;

/// Does what the command line asks for.
pub fn run(answer: Answer) -> io::Result<()> {
    keep_silent_on_too_large();
    let worker = thread::Builder::new().stack_size(STACK).spawn(move || match std::env::args_os().nth(1) {
        Some(word) if word == "--many" => answer_stream(answer, &mut io::stdin().lock(), &mut io::stdout().lock()),
        Some(file) => print_lines(answer, &std::fs::read(file)?),
        None => print_lines(answer, &read_whole(&mut io::stdin().lock())?),
    })?;
    worker.join().expect("the inputs end without a panic")
}

/// An input that is given up is no fault, so nothing is said of its panic.
fn keep_silent_on_too_large() {
    let usual = panic::take_hook();
    panic::set_hook(Box::new(move |panic| {
        if !panic.payload().is::<work::TooLarge>() {
            usual(panic);
        }
    }));
}

fn print_lines(answer: Answer, input: &[u8]) -> io::Result<()> {
    io::stdout().write_all(&lines(answer, input))
}

fn read_whole(input: &mut impl Read) -> io::Result<Vec<u8>> {
    let mut bytes = Vec::new();
    input.read_to_end(&mut bytes)?;
    Ok(bytes)
}

/// Answers inputs until there are no more.
fn answer_stream(answer: Answer, input: &mut impl Read, output: &mut impl Write) -> io::Result<()> {
    let mut length = [0; 4];
    while input.read(&mut length[..1])? == 1 {
        input.read_exact(&mut length[1..])?;
        let mut bytes = vec![0; u32::from_le_bytes(length) as usize];
        input.read_exact(&mut bytes)?;
        let lines = lines(answer, &bytes);
        output.write_all(&(lines.len() as u32).to_le_bytes())?;
        output.write_all(&lines)?;
        output.flush()?;
    }
    Ok(())
}

/// The lines of one input, or the one line that says it was given up.
fn lines(answer: Answer, input: &[u8]) -> Vec<u8> {
    work::start();
    match panic::catch_unwind(|| answer(input)) {
        Ok(lines) => lines,
        Err(reason) if reason.is::<work::TooLarge>() => b"too large\n".to_vec(),
        Err(reason) => panic::resume_unwind(reason),
    }
}
