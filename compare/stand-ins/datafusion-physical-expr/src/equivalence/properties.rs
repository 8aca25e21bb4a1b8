//! The place of the text's properties/mod.rs: what dependency.rs asks of it, and dependency.rs itself, unchanged.

use std::sync::Arc;

use crate::PhysicalExpr;

#[allow(dead_code)]
mod dependency {
    include!(concat!(env!("GALTHUMIR_RUST_TEXT"), "/src/equivalence/properties/dependency.rs"));
}

pub mod dependency_parts;

pub use dependency::{
    Dependencies, DependencyMap, DependencyNode, construct_prefix_orderings, generate_dependency_orderings,
};

/// Whether an expression is the other one or has it among its parts, as mod.rs of the text says. Only
/// `referred_dependencies` needs it, which is left to the engine and never called.
fn expr_refers(referring: &Arc<dyn PhysicalExpr>, referred: &Arc<dyn PhysicalExpr>) -> bool {
    referring.eq(referred) || referring.children().iter().any(|child| expr_refers(child, referred))
}
