//! The lines that show nodes, groups, dependency maps and orderings.

use std::ops::Deref;

use datafusion_physical_expr::PhysicalSortExpr;
use datafusion_physical_expr::equivalence::class_parts::constant_of;
use datafusion_physical_expr::equivalence::properties::DependencyMap;
use datafusion_physical_expr::equivalence::properties::dependency_parts::{dependencies_of, target_of};

use crate::arena::{Arena, Node};
use crate::constants::flavour_and_value;
use crate::group::Group;
use crate::keys::key_of;
use crate::lines::Lines;

/// What stands for nothing.
pub const NONE: &str = "-";

/// A line a node.
pub fn print_nodes(arena: &Arena, lines: &mut Lines) {
    for (number, node) in arena.nodes().iter().enumerate() {
        match node {
            Node::Column { name, index } => lines.print(format_args!("node {number} col {name} {index}")),
            Node::Literal { value } => lines.print(format_args!("node {number} lit {value}")),
            Node::Operation { label, children } => {
                lines.print(format_args!("node {number} op {label}{}", after_blanks(children)))
            }
        }
    }
}

/// A line for the group, then a line a class.
pub fn print_classes(arena: &Arena, group: &Group, lines: &mut Lines) {
    lines.print(format_args!("g {} {} nodes {}", group.len(), group.members(), arena.count()));
    for class in group.iter() {
        let (flavour, value) = flavour_and_value(constant_of(class));
        let members = class.iter().map(|member| arena.number_of(member));
        lines.print(format_args!("c {flavour} {value}{}", after_blanks(members)));
    }
}

/// A line for the map, then a line a key.
pub fn print_map(arena: &Arena, map: &DependencyMap, lines: &mut Lines) {
    lines.print(format_args!("d {}", map.len()));
    for (key, node) in map.iter() {
        let target = or_none(target_of(node).map(|target| key_of(arena, target)));
        let dependencies = dependencies_of(node).iter().map(|key| key_of(arena, key));
        lines.print(format_args!("d {} -> {target} :{}", key_of(arena, key), after_blanks(dependencies)));
    }
}

/// A line for the orderings, then a line each.
pub fn print_orderings(arena: &Arena, orderings: &[impl Deref<Target = [PhysicalSortExpr]>], lines: &mut Lines) {
    lines.print(format_args!("o {}", orderings.len()));
    for ordering in orderings {
        lines.print(format_args!("k{}", after_blanks(ordering.iter().map(|key| key_of(arena, key)))));
    }
}

/// What there is, or `-` where there is nothing.
pub fn or_none(what: Option<impl ToString>) -> String {
    what.map_or(NONE.to_string(), |what| what.to_string())
}

/// The items, each after a blank.
pub fn after_blanks(items: impl IntoIterator<Item = impl ToString>) -> String {
    items.into_iter().map(|item| format!(" {}", item.to_string())).collect()
}
