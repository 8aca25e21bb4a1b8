//! The commands that add nodes.

use super::Calls;
use crate::arena::Node;
use crate::refusal::Refusal;
use crate::shifting::shifted_expr;

impl Calls {
    pub(super) fn add(&mut self, node: Node) -> Result<(), Refusal> {
        let number = self.state.arena.add(node)?;
        self.print_number(number);
        Ok(())
    }

    pub(super) fn add_shifted(&mut self, expression: usize, offset: i64) -> Result<(), Refusal> {
        let shifted = shifted_expr(self.state.arena.expr(expression)?, offset)?;
        let number = self.state.arena.add_answer(&shifted)?;
        self.print_number(number);
        Ok(())
    }

    fn print_number(&mut self, number: usize) {
        self.lines.print(format_args!("e {number}"));
    }
}
