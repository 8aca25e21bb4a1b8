//! Stand-in for the crate datafusion-physical-expr-common: the trait of expressions, and sort keys.

pub mod physical_expr;
pub mod sort_expr;
