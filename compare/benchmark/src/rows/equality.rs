//! The equality question on deep terms.

use crate::clock::Clock;
use crate::library::{self, ArenaCells, GroupCells, done};
use crate::rows::Task;
use crate::rows::shapes::{chain, doublings};
use crate::states::{Group, Terms};

pub struct Equality {
    name: &'static str,
    what: &'static str,
    terms: Terms,
    group: Group,
    sides: [u32; 2],
}

impl Equality {
    pub fn of_chains() -> Self {
        Equality::over_equal_leaves(
            "equality question",
            "one call on two chains of 500 operations over columns that are equal; an arena of 1,002 nodes",
            chain,
        )
    }

    pub fn of_doublings() -> Self {
        Equality::over_equal_leaves(
            "sharing, equality question",
            "one call on two terms of 20 nodes, 2^20 - 1 as a tree, over columns that are equal",
            doublings,
        )
    }

    /// Two terms of one shape over two columns that are equal.
    fn over_equal_leaves(name: &'static str, what: &'static str, shape: impl Fn(&mut Terms, u32) -> u32) -> Self {
        let mut terms = Terms::default();
        let columns = terms.columns(0, 2);
        let sides = [columns[0], columns[1]].map(|leaf| shape(&mut terms, leaf));
        Equality { name, what, group: terms.group(&[columns]), terms, sides }
    }

    fn answer(&self, clock: &mut Clock, ask: impl Fn(&ArenaCells, &GroupCells, u32, u32) -> u32) -> bool {
        let [left, right] = self.sides;
        clock.time(|| ask(&self.terms.cells, &self.group.ours, left, right)) == 1
    }
}

impl Task for Equality {
    type Theirs = bool;
    type Ours = bool;

    fn name(&self) -> &'static str {
        self.name
    }

    fn what(&self) -> &'static str {
        self.what
    }

    fn theirs(&self, clock: &mut Clock) -> bool {
        let [left, right] = self.sides.map(|side| self.terms.expr(side));
        clock.time(|| self.group.theirs.exprs_equal(&left, &right))
    }

    fn ours(&self, clock: &mut Clock) -> bool {
        self.answer(clock, |arena, group, left, right| {
            let mut answer = [0];
            done(library::exprs_equal(arena, group, left, right, &mut answer));
            answer[0]
        })
    }

    #[cfg(inner)]
    fn inner(&self, clock: &mut Clock) -> Option<bool> {
        Some(self.answer(clock, crate::inner::exprs_equal))
    }

    fn same(&self, theirs: &bool, ours: &bool) -> bool {
        theirs == ours
    }
}
