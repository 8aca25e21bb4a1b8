//! Normal forms of terms of several shapes.

use std::sync::Arc;

use datafusion_physical_expr::PhysicalExpr;

use crate::clock::Clock;
use crate::library::{self, ArenaCells, GroupCells, done};
use crate::rows::Task;
use crate::rows::shapes::{chain, doublings, fours, tree};
use crate::states::{Group, Terms, arena_of};

/// Leaves of the tree; the first 256 are members of the group. With what the normal form adds the arena is nearly full.
const LEAVES: u16 = 400;
const MEMBERS: usize = 256;

pub struct NormalForm {
    name: &'static str,
    what: &'static str,
    terms: Terms,
    group: Group,
    expr: u32,
}

impl NormalForm {
    pub fn of_tree() -> Self {
        let mut terms = Terms::default();
        let columns = terms.columns(0, LEAVES);
        let expr = tree(&mut terms, &columns);
        NormalForm {
            name: "normal form, tree",
            what: "one call on a tree of 799 nodes by a group of 64 classes and 256 members, which are leaves of it; 192 nodes are added",
            group: terms.group(&fours(&columns[..MEMBERS])),
            terms,
            expr,
        }
    }

    pub fn of_chain() -> Self {
        NormalForm::over_equal_leaf(
            "normal form, chain",
            "one call on a chain of 500 operations over a column that is rewritten; 500 nodes are added",
            chain,
        )
    }

    pub fn of_doublings() -> Self {
        NormalForm::over_equal_leaf(
            "sharing, normal form",
            "one call on 19 operations, each over the one below it twice: 20 nodes, 2^20 - 1 as a tree; the column below is rewritten",
            doublings,
        )
    }

    /// A term over the second of two columns that are equal.
    fn over_equal_leaf(name: &'static str, what: &'static str, shape: impl Fn(&mut Terms, u32) -> u32) -> Self {
        let mut terms = Terms::default();
        let columns = terms.columns(0, 2);
        let expr = shape(&mut terms, columns[1]);
        NormalForm { name, what, group: terms.group(&[columns]), terms, expr }
    }

    fn normal(
        &self,
        clock: &mut Clock,
        normalize: impl Fn(&mut ArenaCells, &GroupCells, u32, &mut [u32; 1]) -> u32,
    ) -> (Box<ArenaCells>, u32) {
        let (mut arena, mut answer) = (self.terms.cells.clone(), [0]);
        clock.time(|| done(normalize(&mut arena, &self.group.ours, self.expr, &mut answer)));
        (arena, answer[0])
    }
}

impl Task for NormalForm {
    type Theirs = Arc<dyn PhysicalExpr>;
    type Ours = (Box<ArenaCells>, u32);

    fn name(&self) -> &'static str {
        self.name
    }

    fn what(&self) -> &'static str {
        self.what
    }

    fn theirs(&self, clock: &mut Clock) -> Self::Theirs {
        let expr = self.terms.expr(self.expr);
        clock.time(|| self.group.theirs.normalize_expr(expr))
    }

    fn ours(&self, clock: &mut Clock) -> Self::Ours {
        self.normal(clock, |arena, group, expr, answer| library::normalize_expr(arena, group, expr, answer))
    }

    #[cfg(inner)]
    fn inner(&self, clock: &mut Clock) -> Option<Self::Ours> {
        Some(self.normal(clock, crate::inner::normalize_expr))
    }

    fn same(&self, theirs: &Self::Theirs, (arena, answer): &Self::Ours) -> bool {
        arena_of(arena).number_of(theirs) == *answer as usize
    }
}
