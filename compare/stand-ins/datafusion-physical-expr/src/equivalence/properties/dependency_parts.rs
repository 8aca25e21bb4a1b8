//! Not part of the text: what the text keeps to its own crate and a script of calls needs all the same. A map that is
//! printed shows its targets and dependencies, and an insert is tried on a copy.

use super::{Dependencies, DependencyMap, DependencyNode};
use crate::PhysicalSortExpr;

/// The target of a node, if it has one.
pub fn target_of(node: &DependencyNode) -> Option<&PhysicalSortExpr> {
    node.target.as_ref()
}

/// The dependencies of a node.
pub fn dependencies_of(node: &DependencyNode) -> &Dependencies {
    &node.dependencies
}

/// A map with the same content, made by the text's own `insert`.
pub fn copy_of(map: &DependencyMap) -> DependencyMap {
    let mut copy = DependencyMap::default();
    for (key, node) in map.iter() {
        copy.insert(key.clone(), node.target.clone(), None);
        for dependency in node.dependencies.iter() {
            copy.insert(key.clone(), None, Some(dependency.clone()));
        }
    }
    copy
}
