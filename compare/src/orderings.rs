//! Lists of orderings: the Rust builds, reduces, joins and shifts them; what document 01 adds are the numbers of the
//! nodes that come of it, the bounds and the refusals.

use std::collections::HashSet;
use std::sync::Arc;

use datafusion_physical_expr::equivalence::OrderingEquivalenceClass;
use datafusion_physical_expr::{LexOrdering, PhysicalExpr, PhysicalSortExpr};

use crate::arena::Arena;
use crate::keys::{Key, refuse_odd_options, sort_keys};
use crate::refusal::Refusal;
use crate::shifting::{as_offset, refuse_columns_outside};

/// The bounds of a list and of an ordering.
const MOST_ORDERINGS: usize = 32;
pub const MOST_KEYS: usize = 16;

/// A new list, built from lists of keys.
pub fn built(arena: &Arena, lists: &[Vec<Key>]) -> Result<OrderingEquivalenceClass, Refusal> {
    let lists = in_rust(arena, lists)?;
    refuse_too_large(&orderings_of(&lists))?;
    Ok(OrderingEquivalenceClass::new(lists))
}

/// The list with orderings added that are built from lists of keys.
pub fn added(
    arena: &Arena,
    orderings: &OrderingEquivalenceClass,
    lists: &[Vec<Key>],
) -> Result<OrderingEquivalenceClass, Refusal> {
    let lists = in_rust(arena, lists)?;
    refuse_too_large(&[orderings, &orderings_of(&lists)[..]].concat())?;
    let mut added = orderings.clone();
    added.add_orderings(lists);
    Ok(added)
}

/// The list extended by orderings. A list of keys that is none breaks a rule.
pub fn extended(
    arena: &Arena,
    orderings: &OrderingEquivalenceClass,
    lists: &[Vec<Key>],
) -> Result<OrderingEquivalenceClass, Refusal> {
    refuse_odd_options(lists.iter().flatten())?;
    if !lists.iter().all(|keys| is_ordering(keys)) {
        return Err(Refusal::BrokenRule);
    }
    let others = orderings_of(&in_rust(arena, lists)?);
    refuse_too_large(&[orderings, &others[..]].concat())?;
    let mut extended = orderings.clone();
    extended.extend(others);
    Ok(extended)
}

/// The ordering of all orderings, if there are any.
pub fn output_ordering(orderings: &OrderingEquivalenceClass) -> Result<Option<LexOrdering>, Refusal> {
    let output = orderings.output_ordering();
    refuse_too_large(output.as_slice())?;
    Ok(output)
}

/// Each of the orderings extended by each of the others.
pub fn joined(
    orderings: &OrderingEquivalenceClass,
    other: &OrderingEquivalenceClass,
) -> Result<OrderingEquivalenceClass, Refusal> {
    let joined = orderings.clone().join_suffix(other);
    refuse_too_large(&joined)?;
    Ok(joined)
}

/// The list with its columns moved, and its new nodes in the arena.
pub fn shifted(
    arena: &mut Arena,
    orderings: &OrderingEquivalenceClass,
    offset: i64,
) -> Result<OrderingEquivalenceClass, Refusal> {
    refuse_columns_outside(exprs(orderings), offset.into())?;
    let mut shifted = orderings.clone();
    shifted.add_offset(as_offset(offset)).expect("the bounds of a shift were tested");
    arena.add_answers(exprs(&shifted))?;
    Ok(shifted)
}

/// The expressions of all keys, in their order.
fn exprs(orderings: &[LexOrdering]) -> impl Iterator<Item = &Arc<dyn PhysicalExpr>> {
    orderings.iter().flat_map(|ordering| ordering.iter()).map(|key| &key.expr)
}

/// The lists of keys in the Rust's form. The options of all are judged before any expression.
fn in_rust(arena: &Arena, lists: &[Vec<Key>]) -> Result<Vec<Vec<PhysicalSortExpr>>, Refusal> {
    refuse_odd_options(lists.iter().flatten())?;
    lists.iter().map(|keys| sort_keys(arena, keys)).collect()
}

/// The orderings that the Rust builds of lists of keys, before any is reduced.
fn orderings_of(lists: &[Vec<PhysicalSortExpr>]) -> Vec<LexOrdering> {
    lists.iter().cloned().filter_map(LexOrdering::new).collect()
}

/// Whether keys are an ordering: there are some, and no expression comes twice.
fn is_ordering(keys: &[Key]) -> bool {
    let mut seen = HashSet::new();
    !keys.is_empty() && keys.iter().all(|key| seen.insert(key.expression))
}

/// Refuses too many orderings, or one with too many keys.
fn refuse_too_large(orderings: &[LexOrdering]) -> Result<(), Refusal> {
    if orderings.len() > MOST_ORDERINGS || orderings.iter().any(|ordering| ordering.len() > MOST_KEYS) {
        return Err(Refusal::BeyondBound);
    }
    Ok(())
}
