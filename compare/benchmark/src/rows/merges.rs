//! `new` from a list of classes that overlap.

use datafusion_physical_expr::equivalence::{EquivalenceClass, EquivalenceGroup};

use crate::clock::Clock;
use crate::library::{self, GroupCells, done};
use crate::rows::Task;
use crate::states::{NO_GROUP, Terms, group_cells, listed_classes};

const CLASSES: usize = 64;

/// Different members of all classes.
const MEMBERS: u16 = 200;

/// So many classes, one after the other, share a member with the one before and become one.
const LINKED: usize = 8;

pub struct Merges {
    terms: Terms,
    list: Vec<u32>,
    classes: Vec<EquivalenceClass>,
}

impl Merges {
    pub fn new() -> Self {
        let mut terms = Terms::default();
        let columns = terms.columns(0, MEMBERS);
        let class = |place: usize| columns[3 * place + place / LINKED..][..4].to_vec();
        let members: Vec<_> = (0..CLASSES).map(class).collect();
        Merges { list: listed_classes(&members), classes: terms.classes(&members), terms }
    }

    fn made(&self, clock: &mut Clock, make: impl Fn(&[u32], &mut GroupCells) -> u32) -> GroupCells {
        let mut made = NO_GROUP;
        clock.time(|| done(make(&self.list, &mut made)));
        made
    }
}

impl Task for Merges {
    type Theirs = EquivalenceGroup;
    type Ours = GroupCells;

    fn name(&self) -> &'static str {
        "merges"
    }

    fn what(&self) -> &'static str {
        "`new` from 64 classes of four members that overlap, 256 members in the list, into 8 classes; an arena of 200 nodes"
    }

    fn theirs(&self, clock: &mut Clock) -> EquivalenceGroup {
        let classes = self.classes.clone();
        clock.time(|| EquivalenceGroup::new(classes))
    }

    fn ours(&self, clock: &mut Clock) -> GroupCells {
        self.made(clock, |list, made| library::new_group(&self.terms.cells, list, made))
    }

    #[cfg(inner)]
    fn inner(&self, clock: &mut Clock) -> Option<GroupCells> {
        Some(self.made(clock, crate::inner::new_group))
    }

    fn same(&self, theirs: &EquivalenceGroup, ours: &GroupCells) -> bool {
        group_cells(&self.terms.arena, theirs) == *ours
    }
}
