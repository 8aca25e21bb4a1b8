//! The place of the crate datafusion-physical-expr: what its files class.rs, ordering.rs and dependency.rs ask of the
//! crate around them, and under `equivalence` those files themselves, unchanged.

pub mod equivalence;
pub mod expressions;
pub mod physical_expr;
pub mod projection;

pub use datafusion_physical_expr_common::physical_expr::{PhysicalExpr, PhysicalExprRef};
pub use datafusion_physical_expr_common::sort_expr::{LexOrdering, PhysicalSortExpr, PhysicalSortRequirement};
pub use physical_expr::add_offset_to_physical_sort_exprs;
