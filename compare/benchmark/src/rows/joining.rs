//! An inner join of two groups.

use std::sync::Arc;

use datafusion_common::JoinType;
use datafusion_physical_expr::PhysicalExpr;
use datafusion_physical_expr::equivalence::EquivalenceGroup;

use crate::clock::Clock;
use crate::library::{self, ArenaCells, GroupCells, JoinRule, done};
use crate::rows::Task;
use crate::rows::shapes::fours;
use crate::states::{Group, NO_GROUP, Terms, arena_of, group_cells};

/// The columns of a side.
const COLUMNS: u16 = 128;

/// The number of an inner join.
const INNER: u32 = 0;

pub struct Join {
    terms: Terms,
    left: Group,
    right: Group,
    rule: JoinRule,
    on: Vec<(Arc<dyn PhysicalExpr>, Arc<dyn PhysicalExpr>)>,
}

impl Join {
    pub fn new() -> Self {
        let mut terms = Terms::default();
        let (left, right) = (terms.columns(0, COLUMNS), terms.columns(1, COLUMNS));
        let pairs: Vec<_> = left.iter().copied().zip(right.iter().copied()).step_by(8).collect();
        let on = pairs.iter().map(|(left, right)| (terms.expr(*left), terms.expr(*right))).collect();
        let pairs = pairs.iter().flat_map(|(left, right)| [*left, *right]).collect();
        Join {
            left: terms.group(&fours(&left)),
            right: terms.group(&fours(&right)),
            rule: JoinRule { kind: INNER, left_size: usize::from(COLUMNS), pairs },
            on,
            terms,
        }
    }
}

impl Task for Join {
    type Theirs = EquivalenceGroup;
    type Ours = (Box<ArenaCells>, GroupCells);

    fn name(&self) -> &'static str {
        "join"
    }

    fn what(&self) -> &'static str {
        "one inner join of two groups of 32 classes and 128 members, 16 pairs; 128 columns are shifted, into an arena of 256 nodes"
    }

    fn theirs(&self, clock: &mut Clock) -> EquivalenceGroup {
        let join = || self.left.theirs.join(&self.right.theirs, &JoinType::Inner, self.rule.left_size, &self.on);
        clock.time(join).expect("no index passes its bound")
    }

    fn ours(&self, clock: &mut Clock) -> Self::Ours {
        let (mut arena, mut made) = (self.terms.cells.clone(), NO_GROUP);
        let (left, right) = (&self.left.ours, &self.right.ours);
        clock.time(|| done(library::join(&mut arena, left, right, &self.rule, &mut made)));
        (arena, made)
    }

    fn same(&self, theirs: &EquivalenceGroup, (arena, made): &Self::Ours) -> bool {
        group_cells(&arena_of(arena), theirs) == *made
    }
}
