//! Projection of expressions and of groups: the Rust projects; what document 01 adds are the numbers of the nodes
//! that come of it, and the refusals.

use std::collections::HashSet;
use std::sync::Arc;

use datafusion_physical_expr::PhysicalExpr;
use datafusion_physical_expr::equivalence::{EquivalenceClass, EquivalenceGroup, ProjectionMapping};
use datafusion_physical_expr::projection::ProjectionTargets;

use crate::arena::Arena;
use crate::group::{Group, MOST_MEMBERS, refuse_too_large};
use crate::refusal::Refusal;

const MOST_SOURCES: usize = 64;
const MOST_TARGETS: usize = 8;

/// A source of a mapping with its targets, as numbers of expressions.
#[derive(Debug)]
pub struct MappedSource {
    pub source: usize,
    pub targets: Vec<usize>,
}

/// The number of the expression's projection, if it has one.
pub fn projected_expr(
    arena: &mut Arena,
    group: &Group,
    mapping: &[MappedSource],
    expression: usize,
) -> Result<Option<usize>, Refusal> {
    let mapping = projection_mapping(arena, mapping)?;
    let projected = group.project_expr(&mapping, &arena.expr(expression)?);
    projected.map(|answer| arena.add_answer(&answer)).transpose()
}

/// The numbers of the expressions' projections, in their order.
pub fn projected_expressions(
    arena: &mut Arena,
    group: &Group,
    mapping: &[MappedSource],
    expressions: &[usize],
) -> Result<Vec<Option<usize>>, Refusal> {
    let mapping = projection_mapping(arena, mapping)?;
    let exprs = arena.exprs(expressions)?;
    let projected: Vec<_> = group.project_expressions(&mapping, &exprs).collect();
    arena.or_as_before(|arena| {
        projected.iter().map(|one| one.as_ref().map(|answer| arena.add_answer(answer)).transpose()).collect()
    })
}

/// The group that the Rust makes of the projected one, with its new nodes in the arena, or the first refusal that
/// applies. A constant never makes a group smaller, so the group with all of them shows whether it was too large
/// after any.
pub fn projected_group(arena: &mut Arena, group: &Group, mapping: &[MappedSource]) -> Result<Group, Refusal> {
    let mapping = projection_mapping(arena, mapping)?;
    let projection = Projection { group, mapping: &mapping };
    arena.or_as_before(|arena| {
        arena.add_answers(&projection.made_exprs())?;
        refuse_too_large(&projection.list_reaching_new(), MOST_MEMBERS)?;
        Group::of(group.project(&mapping))
    })
}

/// The mapping in the Rust's form; the place of a target is its place among all targets.
fn projection_mapping(arena: &Arena, mapping: &[MappedSource]) -> Result<ProjectionMapping, Refusal> {
    if mapping.iter().any(|mapped| mapped.targets.is_empty()) {
        return Err(Refusal::OutsideSet);
    }
    refuse_broken(mapping)?;
    let mut places = 0..;
    mapping
        .iter()
        .map(|mapped| {
            let targets: Vec<_> = arena.exprs(&mapped.targets)?.into_iter().zip(&mut places).collect();
            Ok((arena.expr(mapped.source)?, ProjectionTargets::from(targets)))
        })
        .collect()
}

/// Refuses a mapping with too many sources, with too many targets of one, or with a source twice.
fn refuse_broken(mapping: &[MappedSource]) -> Result<(), Refusal> {
    let mut seen = HashSet::new();
    let broken = mapping.iter().any(|mapped| mapped.targets.len() > MOST_TARGETS || !seen.insert(mapped.source));
    if broken || mapping.len() > MOST_SOURCES {
        return Err(Refusal::BrokenRule);
    }
    Ok(())
}

/// A projection of a group: what the Rust's `project` makes on its way, step by step as the text has them.
struct Projection<'a> {
    group: &'a EquivalenceGroup,
    mapping: &'a ProjectionMapping,
}

impl Projection<'_> {
    /// The projections of a class's members, of those that have one.
    fn of_members(&self, class: &EquivalenceClass) -> Vec<Arc<dyn PhysicalExpr>> {
        self.group.project_expressions(self.mapping, class.iter()).flatten().collect()
    }

    /// The normal forms of the sources, in their order.
    fn normal_sources(&self) -> impl Iterator<Item = Arc<dyn PhysicalExpr>> {
        self.mapping.keys().map(|source| self.group.normalize_expr(Arc::clone(source)))
    }

    /// All expressions that are made: the members' projections in class order, then the sources' normal forms.
    fn made_exprs(&self) -> Vec<Arc<dyn PhysicalExpr>> {
        self.group.iter().flat_map(|class| self.of_members(class)).chain(self.normal_sources()).collect()
    }

    /// The classes of targets whose sources have one normal form, in the order of these.
    fn target_classes(&self) -> Vec<EquivalenceClass> {
        let mut classes: Vec<(_, EquivalenceClass)> = Vec::new();
        for (normal, targets) in self.normal_sources().zip(self.mapping.values()) {
            let place = classes.iter().position(|(other, _)| *other == normal).unwrap_or(classes.len());
            if place == classes.len() {
                classes.push((normal, EquivalenceClass::default()));
            }
            targets.iter().for_each(|(target, _)| classes[place].1.push(Arc::clone(target)));
        }
        classes.into_iter().map(|(_, class)| class).collect()
    }

    /// The list of classes that the Rust hands to `new`. The trivial ones are out, so it is never outside the domain:
    /// no class of one member without constant is left.
    fn list_reaching_new(&self) -> Vec<EquivalenceClass> {
        let of_members = self.group.iter().map(|class| EquivalenceClass::new(self.of_members(class)));
        of_members.chain(self.target_classes()).filter(|class| !class.is_trivial()).collect()
    }
}
