//! Shifting: names stay, every column's index moves, as document 01 says. The original is not in the text.

use std::sync::Arc;

use datafusion_common::tree_node::{Transformed, TransformedResult, TreeNode};
use datafusion_common::{DataFusionError, Result};

use crate::expressions::Column;
use crate::{PhysicalExpr, PhysicalSortExpr};

/// The expression with `offset` added to the index of each of its columns.
pub fn add_offset_to_expr(expr: Arc<dyn PhysicalExpr>, offset: isize) -> Result<Arc<dyn PhysicalExpr>> {
    expr.transform(|node| match node.downcast_ref::<Column>() {
        Some(column) => Ok(Transformed::yes(Arc::new(shifted_column(column, offset)?))),
        None => Ok(Transformed::no(node)),
    })
    .data()
}

/// The column with its index moved, or an error where the index would fall below 0 or pass the largest number.
fn shifted_column(column: &Column, offset: isize) -> Result<Column> {
    match column.index().checked_add_signed(offset) {
        Some(index) => Ok(Column::new(column.name(), index)),
        None => Err(DataFusionError(format!("{column} can't move by {offset}"))),
    }
}

/// The keys with their expressions shifted.
pub fn add_offset_to_physical_sort_exprs(
    keys: impl IntoIterator<Item = PhysicalSortExpr>,
    offset: isize,
) -> Result<Vec<PhysicalSortExpr>> {
    keys.into_iter().map(|key| Ok(PhysicalSortExpr { expr: add_offset_to_expr(key.expr, offset)?, ..key })).collect()
}
