//! Equal conditions from an empty group on: classes are made, grow to 256 members in all, and become one.

use std::sync::Arc;

use datafusion_physical_expr::PhysicalExpr;
use datafusion_physical_expr::equivalence::EquivalenceGroup;

use crate::clock::Clock;
use crate::library::{self, ArenaCells, GroupCells, MOST_MEMBERS, done};
use crate::rows::Task;
use crate::states::{NO_GROUP, Terms, group_cells};

const CLASSES: usize = 64;
const MEMBERS: usize = 4;

pub struct EqualConditions {
    terms: Terms,
    pairs: Vec<(u32, u32)>,
    exprs: Vec<(Arc<dyn PhysicalExpr>, Arc<dyn PhysicalExpr>)>,
}

impl EqualConditions {
    pub fn new() -> Self {
        let mut terms = Terms::default();
        let columns = terms.columns(0, (CLASSES * MEMBERS) as u16);
        let member = |class: usize, place: usize| columns[place * CLASSES + class];
        let growing = (1..MEMBERS).flat_map(|place| (0..CLASSES).map(move |class| (class, place)));
        let growing = growing.map(|(class, place)| (member(class, 0), member(class, place)));
        let merging = (1..CLASSES).map(|class| (member(class, 1), member(class - 1, 2)));
        let pairs: Vec<_> = growing.chain(merging).collect();
        let exprs = pairs.iter().map(|(left, right)| (terms.expr(*left), terms.expr(*right))).collect();
        EqualConditions { terms, pairs, exprs }
    }

    /// The group after all conditions, each added by `add`, which answers the number of a refusal.
    fn added(&self, clock: &mut Clock, add: impl Fn(&ArenaCells, &mut GroupCells, u32, u32) -> u32) -> GroupCells {
        let mut group = NO_GROUP;
        done(library::open_group(MOST_MEMBERS, &mut group));
        clock.time(|| {
            for (left, right) in &self.pairs {
                done(add(&self.terms.cells, &mut group, *left, *right));
            }
        });
        group
    }
}

impl Task for EqualConditions {
    type Theirs = EquivalenceGroup;
    type Ours = GroupCells;

    fn name(&self) -> &'static str {
        "equal conditions"
    }

    fn what(&self) -> &'static str {
        "255 calls from an empty group on: 64 classes, then 256 members, then one class; an arena of 256 nodes"
    }

    fn theirs(&self, clock: &mut Clock) -> EquivalenceGroup {
        let mut group = EquivalenceGroup::default();
        let pairs = self.exprs.clone();
        clock.time(|| {
            for (left, right) in pairs {
                group.add_equal_conditions(left, right);
            }
        });
        group
    }

    fn ours(&self, clock: &mut Clock) -> GroupCells {
        self.added(clock, |arena, group, left, right| {
            library::add_equal_conditions(arena, group, left, right, &mut [0])
        })
    }

    #[cfg(inner)]
    fn inner(&self, clock: &mut Clock) -> Option<GroupCells> {
        Some(self.added(clock, crate::inner::add_equal_conditions))
    }

    fn same(&self, theirs: &EquivalenceGroup, ours: &GroupCells) -> bool {
        group_cells(&self.terms.arena, theirs) == *ours
    }
}
