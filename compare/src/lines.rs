//! The lines that a session or a script prints.

use std::fmt::Arguments;
use std::io::Write;

#[derive(Default)]
pub struct Lines {
    bytes: Vec<u8>,
}

impl Lines {
    /// Adds one line.
    pub fn print(&mut self, line: Arguments) {
        writeln!(self.bytes, "{line}").expect("bytes in memory can always grow");
    }

    /// Adds one line of any bytes.
    pub fn print_bytes(&mut self, line: &[u8]) {
        self.bytes.extend(line);
        self.bytes.push(b'\n');
    }

    /// All lines, each with its end.
    pub fn into_bytes(self) -> Vec<u8> {
        self.bytes
    }
}
