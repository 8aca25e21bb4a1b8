//! A session: records one after the other, and the lines that they print. The calls are those of the Rust
//! text; the refusals, which the Rust doesn't have, are document 01's.

use datafusion_physical_expr::equivalence::OrderingEquivalenceClass;

use crate::arena::Arena;
use crate::constants::constant;
use crate::group::Group;
use crate::keys::Key;
use crate::lines::Lines;
use crate::orderings::added;
use crate::records::{self, Record};
use crate::refusal::Refusal;

const MOST_BYTES: usize = 65_536;

#[derive(Default)]
struct Session {
    arena: Arena,
    group: Group,
    orderings: OrderingEquivalenceClass,
    lines: Lines,
}

/// The lines that the session with this input prints.
pub fn run(input: &[u8]) -> Vec<u8> {
    if input.len() > MOST_BYTES {
        return b"r 0 9\nend 0 0 0\n".to_vec();
    }
    let mut session = Session::default();
    session.take_records(input);
    session.print_end();
    session.lines.into_bytes()
}

impl Session {
    /// Takes records until the input ends or one is malformed.
    fn take_records(&mut self, mut input: &[u8]) {
        let mut count = 0;
        while !input.is_empty() {
            count += 1;
            match records::read(input) {
                Ok((record, rest)) => {
                    if let Err(refusal) = self.take(record) {
                        self.print_refusal(count, refusal);
                    }
                    input = rest;
                }
                Err(refusal) => return self.print_refusal(count, refusal),
            }
        }
    }

    /// Does what one record asks for, or refuses it and changes nothing.
    fn take(&mut self, record: Record) -> Result<(), Refusal> {
        match record {
            Record::Add(node) => self.arena.add(node).map(|_| ()),
            Record::EqualPair(left, right) => self.add_equal(left, right),
            Record::Constant { expression, flavour, value } => self.add_constant(expression, flavour, value),
            Record::NormalForm(expression) => self.print_normal_form(expression),
            Record::Equality(left, right) => self.print_equality(left, right),
            Record::Ordering(keys) => self.add_ordering(keys),
        }
    }

    fn add_equal(&mut self, left: usize, right: usize) -> Result<(), Refusal> {
        self.group.add_equal(self.arena.expr(left)?, self.arena.expr(right)?).map(|_| ())
    }

    fn add_constant(&mut self, expression: usize, flavour: u16, value: u32) -> Result<(), Refusal> {
        let constant = constant(flavour.into(), value)?;
        self.group.add_constant(self.arena.expr(expression)?, constant)
    }

    fn print_normal_form(&mut self, expression: usize) -> Result<(), Refusal> {
        let expr = self.arena.expr(expression)?;
        let answer = self.arena.add_answer(&self.group.normalize_expr(expr))?;
        self.lines.print(format_args!("n {expression} {answer}"));
        Ok(())
    }

    fn print_equality(&mut self, left: usize, right: usize) -> Result<(), Refusal> {
        let equal = self.group.exprs_equal(&self.arena.expr(left)?, &self.arena.expr(right)?);
        self.lines.print(format_args!("q {left} {right} {}", u8::from(equal)));
        Ok(())
    }

    fn add_ordering(&mut self, keys: Vec<Key>) -> Result<(), Refusal> {
        self.orderings = added(&self.arena, &self.orderings, &[keys])?;
        Ok(())
    }

    fn print_refusal(&mut self, record: usize, refusal: Refusal) {
        self.lines.print(format_args!("r {record} {}", refusal as u8));
    }

    fn print_end(&mut self) {
        let (classes, members) = (self.group.len(), self.group.members());
        let orderings = self.orderings.len();
        self.lines.print(format_args!("end {classes} {members} {orderings}"));
    }
}
