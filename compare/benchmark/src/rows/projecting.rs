//! The projection of a group.

use std::sync::Arc;

use datafusion_physical_expr::PhysicalExpr;
use datafusion_physical_expr::equivalence::{EquivalenceGroup, ProjectionMapping};
use datafusion_physical_expr::projection::ProjectionTargets;

use crate::clock::Clock;
use crate::library::{self, ArenaCells, GroupCells, done};
use crate::rows::Task;
use crate::rows::shapes::fours;
use crate::states::{Group, NO_GROUP, Terms, arena_of, group_cells};

/// Classes of columns, each with one mapped member, and classes of operations over columns.
const COLUMN_CLASSES: usize = 48;
const OPERATION_CLASSES: usize = 16;

const LABEL: u32 = 1;

pub struct Project {
    terms: Terms,
    group: Group,
    mapping: ProjectionMapping,
    numbers: Vec<u32>,
}

impl Project {
    pub fn new() -> Self {
        let mut terms = Terms::default();
        let columns = terms.columns(0, 4 * COLUMN_CLASSES as u16);
        let operations: Vec<u32> = (0..4 * OPERATION_CLASSES)
            .map(|place| terms.operation(LABEL, &[columns[place], columns[columns.len() - 1 - place]]))
            .collect();
        let targets = terms.columns(1, 2 * COLUMN_CLASSES as u16);
        let sources = columns.iter().skip(1).step_by(4);
        let mapped: Vec<(u32, &[u32])> = sources.copied().zip(targets.chunks(2)).collect();
        Project {
            group: terms.group(&fours(&[columns.clone(), operations].concat())),
            mapping: mapped.iter().map(|(source, targets)| mapped_exprs(&terms, *source, targets)).collect(),
            numbers: mapped.iter().flat_map(|(source, targets)| mapped_numbers(*source, targets)).collect(),
            terms,
        }
    }
}

/// A source and its targets in the Rust's form.
fn mapped_exprs(terms: &Terms, source: u32, targets: &[u32]) -> (Arc<dyn PhysicalExpr>, ProjectionTargets) {
    let targets: Vec<_> = terms.exprs(targets).into_iter().zip(0..).collect();
    (terms.expr(source), ProjectionTargets::from(targets))
}

/// A source and its targets as they are lent.
fn mapped_numbers(source: u32, targets: &[u32]) -> Vec<u32> {
    [&[source, targets.len() as u32], targets].concat()
}

impl Task for Project {
    type Theirs = EquivalenceGroup;
    type Ours = (Box<ArenaCells>, GroupCells);

    fn name(&self) -> &'static str {
        "project"
    }

    fn what(&self) -> &'static str {
        "one projection of a group of 64 classes and 256 members, 64 of them operations, by 48 sources with two targets each; an arena of 352 nodes"
    }

    fn theirs(&self, clock: &mut Clock) -> EquivalenceGroup {
        clock.time(|| self.group.theirs.project(&self.mapping))
    }

    fn ours(&self, clock: &mut Clock) -> Self::Ours {
        let (mut arena, mut made) = (self.terms.cells.clone(), NO_GROUP);
        clock.time(|| done(library::project(&mut arena, &self.group.ours, &self.numbers, &mut made)));
        (arena, made)
    }

    fn same(&self, theirs: &EquivalenceGroup, (arena, made): &Self::Ours) -> bool {
        group_cells(&arena_of(arena), theirs) == *made
    }
}
