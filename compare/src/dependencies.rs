//! Dependency maps: the Rust inserts and enumerates; what document 01 adds are the bounds and the refusals.

use datafusion_physical_expr::LexOrdering;
use datafusion_physical_expr::equivalence::properties::dependency_parts::{copy_of, dependencies_of};
use datafusion_physical_expr::equivalence::properties::{
    Dependencies, DependencyMap, construct_prefix_orderings, generate_dependency_orderings,
};

use crate::arena::Arena;
use crate::asking::asked;
use crate::keys::{Key, refuse_odd_options, sort_key, sort_keys};
use crate::orderings::MOST_KEYS;
use crate::refusal::Refusal;

/// The bounds of a map.
const MOST_MAP_KEYS: usize = 64;
const MOST_DEPENDENCIES: usize = 16;

/// The bounds of an enumeration: of what is given, and of the answer.
const MOST_GIVEN: usize = 16;
const MOST_CONTRIBUTING: usize = 6;
const MOST_ORDERINGS: usize = 1024;

/// What is inserted: a key, its target and what it depends on, if there are such.
#[derive(Clone, Copy, Debug)]
pub struct Insert {
    pub key: Key,
    pub target: Option<Key>,
    pub dependency: Option<Key>,
}

impl Insert {
    /// All keys that are given.
    fn keys(&self) -> impl Iterator<Item = &Key> {
        [&self.key].into_iter().chain(&self.target).chain(&self.dependency)
    }
}

/// The map after the Rust's insert, or the first refusal that applies.
pub fn inserted(arena: &Arena, map: &DependencyMap, insert: &Insert) -> Result<DependencyMap, Refusal> {
    refuse_odd_options(insert.keys())?;
    let if_given = |key: Option<Key>| key.map(|key| sort_key(arena, key)).transpose();
    let key = sort_key(arena, insert.key)?;
    let (target, dependency) = (if_given(insert.target)?, if_given(insert.dependency)?);
    let mut changed = copy_of(map);
    changed.insert(key, target, dependency);
    let fits = changed.values().all(|node| dependencies_of(node).len() <= MOST_DEPENDENCIES);
    if fits && changed.len() <= MOST_MAP_KEYS { Ok(changed) } else { Err(Refusal::BeyondBound) }
}

/// The orderings that lead to a key, or the first refusal that applies.
pub fn prefix_orderings(arena: &Arena, map: &DependencyMap, key: Key) -> Result<Vec<LexOrdering>, Refusal> {
    let key = sort_key(arena, key)?;
    within_bounds(asked(|| construct_prefix_orderings(&key, map))?)
}

/// The orderings of several keys, or the first refusal that applies. Each key is asked for alone first: its walk shows
/// 6 and 7, and how many orderings lead to it. So no product is made that is too large.
pub fn dependency_orderings(arena: &Arena, map: &DependencyMap, keys: &[Key]) -> Result<Vec<LexOrdering>, Refusal> {
    let given = Dependencies::new(sort_keys(arena, keys)?);
    let sizes = given
        .iter()
        .map(|key| asked(|| construct_prefix_orderings(key, map).len()))
        .collect::<Result<Vec<_>, _>>()?;
    refuse_large_product(&sizes)?;
    within_bounds(asked(|| generate_dependency_orderings(&given, map))?)
}

/// Refuses too many keys, by the number of orderings that lead to each; too many with such; or too many ways to
/// choose one of each and put them in an order.
fn refuse_large_product(sizes: &[usize]) -> Result<(), Refusal> {
    let contributing: Vec<usize> = sizes.iter().copied().filter(|size| *size > 0).collect();
    if sizes.len() > MOST_GIVEN || contributing.len() > MOST_CONTRIBUTING {
        return Err(Refusal::BeyondBound);
    }
    let ways = contributing.iter().zip(1..).fold(1_usize, |ways, (size, place)| ways.saturating_mul(size * place));
    if ways > MOST_ORDERINGS { Err(Refusal::BeyondBound) } else { Ok(()) }
}

/// The orderings, unless there are too many or one is too long.
fn within_bounds(orderings: Vec<LexOrdering>) -> Result<Vec<LexOrdering>, Refusal> {
    let short = orderings.iter().all(|ordering| ordering.len() <= MOST_KEYS);
    if short && orderings.len() <= MOST_ORDERINGS { Ok(orderings) } else { Err(Refusal::BeyondBound) }
}
