//! Sort keys by a group: the Rust makes their normal forms; what document 01 adds are the numbers of the nodes that
//! come of it, the bound and the refusals.

use datafusion_physical_expr::PhysicalSortExpr;

use crate::arena::Arena;
use crate::group::Group;
use crate::keys::{Key, sort_keys};
use crate::orderings::MOST_KEYS;
use crate::refusal::Refusal;

/// The normal forms of the keys without the uniform constants, with their new nodes in the arena. Too many keys are
/// refused after a full arena.
pub fn normal_keys(arena: &mut Arena, group: &Group, keys: &[Key]) -> Result<Vec<PhysicalSortExpr>, Refusal> {
    let keys = sort_keys(arena, keys)?;
    let forms: Vec<_> = keys.iter().map(|key| group.normalize_sort_expr(key.clone())).collect();
    arena.or_as_before(|arena| {
        arena.add_answers(forms.iter().map(|key| &key.expr))?;
        if keys.len() > MOST_KEYS {
            return Err(Refusal::BeyondBound);
        }
        Ok(group.normalize_sort_exprs(keys).collect())
    })
}
