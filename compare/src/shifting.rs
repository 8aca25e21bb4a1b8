//! Shifted columns: the Rust moves them; document 01 has the bounds of an index, which are tested before.

use std::sync::Arc;

use datafusion_physical_expr::PhysicalExpr;
use datafusion_physical_expr::expressions::Column;
use datafusion_physical_expr::physical_expr::add_offset_to_expr;

use crate::refusal::Refusal;

/// The expression with its columns moved.
pub fn shifted_expr(expr: Arc<dyn PhysicalExpr>, offset: i64) -> Result<Arc<dyn PhysicalExpr>, Refusal> {
    refuse_columns_outside([&expr], offset.into())?;
    Ok(add_offset_to_expr(expr, as_offset(offset)).expect("the bounds of a shift were tested"))
}

/// Refuses a shift that takes the index of a column out of 16 bits.
pub fn refuse_columns_outside<'a>(
    exprs: impl IntoIterator<Item = &'a Arc<dyn PhysicalExpr>>,
    offset: i128,
) -> Result<(), Refusal> {
    if exprs.into_iter().all(|expr| columns_stay(expr, offset)) { Ok(()) } else { Err(Refusal::ColumnOutside) }
}

/// An offset in the Rust's form.
pub fn as_offset(offset: i64) -> isize {
    isize::try_from(offset).expect("the Rust's offsets have 64 bits")
}

/// Whether every column of the tree still has an index of 16 bits when it is moved.
fn columns_stay(tree: &Arc<dyn PhysicalExpr>, offset: i128) -> bool {
    match tree.downcast_ref::<Column>() {
        Some(column) => u16::try_from(column.index() as i128 + offset).is_ok(),
        None => tree.children().into_iter().all(|child| columns_stay(child, offset)),
    }
}
