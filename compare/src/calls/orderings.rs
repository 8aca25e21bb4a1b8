//! The commands on lists of orderings.

use datafusion_physical_expr::equivalence::OrderingEquivalenceClass;

use super::Calls;
use crate::keys::{Key, number_of_options};
use crate::orderings::{added, built, extended, joined, output_ordering, shifted};
use crate::refusal::Refusal;
use crate::showing::{or_none, print_orderings};
use crate::state::State;

impl Calls {
    pub(super) fn new_orderings(&mut self, made: &str, lists: &[Vec<Key>]) -> Result<(), Refusal> {
        let orderings = built(&self.state.arena, lists)?;
        self.keep_orderings(made, orderings);
        Ok(())
    }

    pub(super) fn add_orderings(&mut self, name: &str, lists: &[Vec<Key>]) -> Result<(), Refusal> {
        let orderings = added(&self.state.arena, self.state.orderings.get(name), lists)?;
        self.keep_orderings(name, orderings);
        Ok(())
    }

    pub(super) fn extend_orderings(&mut self, name: &str, lists: &[Vec<Key>]) -> Result<(), Refusal> {
        let orderings = extended(&self.state.arena, self.state.orderings.get(name), lists)?;
        self.keep_orderings(name, orderings);
        Ok(())
    }

    pub(super) fn clear_orderings(&mut self, name: &str) -> Result<(), Refusal> {
        self.state.orderings.change(name, |orderings| {
            orderings.clear();
            Ok(())
        })?;
        self.print_kept_orderings(name);
        Ok(())
    }

    pub(super) fn print_output_ordering(&mut self, name: &str) -> Result<(), Refusal> {
        let output = output_ordering(self.state.orderings.get(name))?;
        print_orderings(&self.state.arena, output.as_slice(), &mut self.lines);
        Ok(())
    }

    pub(super) fn join_suffix(&mut self, made: &str, left: &str, right: &str) -> Result<(), Refusal> {
        let orderings = joined(self.state.orderings.get(left), self.state.orderings.get(right))?;
        self.keep_orderings(made, orderings);
        Ok(())
    }

    pub(super) fn add_offset(&mut self, name: &str, offset: i64) -> Result<(), Refusal> {
        let State { arena, orderings, .. } = &mut self.state;
        let orderings = shifted(arena, orderings.get(name), offset)?;
        self.keep_orderings(name, orderings);
        Ok(())
    }

    pub(super) fn print_options(&mut self, name: &str, expression: usize) -> Result<(), Refusal> {
        let options = self.state.orderings.get(name).get_options(&self.state.arena.expr(expression)?);
        self.lines.print(format_args!("v {}", or_none(options.map(number_of_options))));
        Ok(())
    }

    pub(super) fn print_partial_const(&mut self, name: &str, expression: usize) -> Result<(), Refusal> {
        let constant = self.state.orderings.get(name).is_expr_partial_const(&self.state.arena.expr(expression)?);
        self.lines.print(format_args!("v {}", u8::from(constant)));
        Ok(())
    }

    /// Keeps a new list under this name and prints it.
    fn keep_orderings(&mut self, name: &str, orderings: OrderingEquivalenceClass) {
        self.state.orderings.keep(name, orderings);
        self.print_kept_orderings(name);
    }

    pub(super) fn print_kept_orderings(&mut self, name: &str) {
        print_orderings(&self.state.arena, self.state.orderings.get(name), &mut self.lines);
    }
}
