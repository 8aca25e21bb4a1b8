//! Sort keys as numbers, an expression and its options, and in the Rust's form.

use std::fmt::{Display, Formatter};

use arrow::compute::SortOptions;
use datafusion_physical_expr::PhysicalSortExpr;

use crate::arena::Arena;
use crate::refusal::Refusal;

const DESCENDING: u32 = 1;
const NULLS_FIRST: u32 = 2;

#[derive(Clone, Copy, Debug)]
pub struct Key {
    pub expression: usize,
    pub options: u32,
}

/// A key as `E:O`.
impl Display for Key {
    fn fmt(&self, f: &mut Formatter<'_>) -> std::fmt::Result {
        write!(f, "{}:{}", self.expression, self.options)
    }
}

/// The keys in the Rust's form. The options of all are judged before any expression.
pub fn sort_keys(arena: &Arena, keys: &[Key]) -> Result<Vec<PhysicalSortExpr>, Refusal> {
    refuse_odd_options(keys)?;
    keys.iter().map(|key| sort_key(arena, *key)).collect()
}

/// Refuses options outside their set.
pub fn refuse_odd_options<'a>(keys: impl IntoIterator<Item = &'a Key>) -> Result<(), Refusal> {
    keys.into_iter().try_for_each(|key| sort_options(key.options).map(|_| ()))
}

/// One key in the Rust's form.
pub fn sort_key(arena: &Arena, key: Key) -> Result<PhysicalSortExpr, Refusal> {
    Ok(PhysicalSortExpr { options: sort_options(key.options)?, expr: arena.expr(key.expression)? })
}

/// The key as numbers; its expression is in the arena.
pub fn key_of(arena: &Arena, key: &PhysicalSortExpr) -> Key {
    Key { expression: arena.number_of(&key.expr), options: number_of_options(key.options) }
}

/// Options as a number.
pub fn number_of_options(options: SortOptions) -> u32 {
    let descending = if options.descending { DESCENDING } else { 0 };
    let nulls_first = if options.nulls_first { NULLS_FIRST } else { 0 };
    descending + nulls_first
}

/// Options in the Rust's form: 1 for descending plus 2 for nulls first.
fn sort_options(options: u32) -> Result<SortOptions, Refusal> {
    if options > DESCENDING + NULLS_FIRST {
        return Err(Refusal::OutsideSet);
    }
    Ok(SortOptions { descending: options & DESCENDING != 0, nulls_first: options & NULLS_FIRST != 0 })
}
