//! The commands on mappings and projections.

use super::Calls;
use crate::projecting::{projected_expr, projected_expressions, projected_group};
use crate::refusal::Refusal;
use crate::showing::{after_blanks, or_none};
use crate::state::{Mapping, State};

impl Calls {
    pub(super) fn keep_mapping(&mut self, name: &str, sources: Mapping) {
        self.state.mappings.keep(name, sources);
        self.print_ok();
    }

    pub(super) fn print_projection(&mut self, group: &str, mapping: &str, expression: usize) -> Result<(), Refusal> {
        let State { arena, groups, mappings, .. } = &mut self.state;
        match projected_expr(arena, groups.get(group), mappings.get(mapping), expression)? {
            Some(number) => self.lines.print(format_args!("p {number} nodes {}", arena.count())),
            None => self.lines.print(format_args!("p -")),
        }
        Ok(())
    }

    pub(super) fn print_projections(
        &mut self,
        group: &str,
        mapping: &str,
        expressions: &[usize],
    ) -> Result<(), Refusal> {
        let State { arena, groups, mappings, .. } = &mut self.state;
        let numbers = projected_expressions(arena, groups.get(group), mappings.get(mapping), expressions)?;
        let shown = after_blanks(numbers.into_iter().map(or_none));
        self.lines.print(format_args!("p{shown} nodes {}", arena.count()));
        Ok(())
    }

    pub(super) fn project(&mut self, made: &str, group: &str, mapping: &str) -> Result<(), Refusal> {
        let State { arena, groups, mappings, .. } = &mut self.state;
        let projected = projected_group(arena, groups.get(group), mappings.get(mapping))?;
        self.keep_group(made, projected);
        Ok(())
    }
}
