//! Dependency maps, and the orderings that are enumerated from them.

use std::fmt;

use crate::layout::{
    ENUMERATION_OUTPUT, MAP_CELLS, MAP_COUNT, MAP_LIST, MAP_NODE_CELLS, MAP_NODE_DEPENDENCIES, MAP_NODE_KEY,
    MAP_NODE_SIZE, MAP_NODE_TARGET, NONE,
};
use crate::refusal::{answered, done};
use crate::state::state;
use crate::{lent, raw, Arena, Enumerated, Key, Refusal};

/// An entry of a dependency map.
#[derive(Clone, Debug, PartialEq, Eq, Hash)]
pub struct Entry {
    /// The key.
    pub key: Key,
    /// What it becomes, if it becomes anything.
    pub target: Option<Key>,
    /// What it depends on, in order of arrival.
    pub dependencies: Vec<Key>,
}

impl Entry {
    /// The entry that its cells say. A count over its bound is taken for the bound.
    fn of(cells: &[u16]) -> Entry {
        let dependencies = cells[MAP_NODE_DEPENDENCIES..].iter().take(cells[MAP_NODE_SIZE].into());
        Entry {
            key: Key::of_cell(cells[MAP_NODE_KEY]),
            target: cells[MAP_NODE_TARGET].checked_sub(1).map(Key::of_cell),
            dependencies: dependencies.map(|cell| Key::of_cell(*cell)).collect(),
        }
    }
}

state! {
    /// Sort keys, what each becomes, and what it depends on.
    ///
    /// The default is an empty map. A map belongs to the arena whose expressions it holds; each call is lent both.
    ///
    /// ```
    /// use galthumir::{Arena, Entry, Key, Map};
    ///
    /// let mut arena = Arena::default();
    /// let [a, b] = [Key::asc(arena.add_column(0, 0)?), Key::asc(arena.add_column(1, 1)?)];
    /// let mut map = Map::default();
    /// map.insert(&arena, a, Some(a), Some(b))?;
    /// assert_eq!(map.entries(&arena)?, [Entry { key: a, target: Some(a), dependencies: vec![b] }]);
    /// # Ok::<(), galthumir::Refusal>(())
    /// ```
    Map: [u16; MAP_CELLS]
}

impl Default for Map {
    fn default() -> Self {
        Self::from_cells(&[0; MAP_CELLS])
    }
}

impl Map {
    /// Checks the map as every call does that is lent it. Refusals: 11, 1.
    ///
    /// ```
    /// use galthumir::{layout, Arena, Map, Refusal};
    ///
    /// let arena = Arena::default();
    /// let mut cells = *Map::default().cells();
    /// assert_eq!(Map::from_cells(&cells).check(&arena), Ok(()));
    /// cells[layout::MAP_COUNT] = 65;
    /// assert_eq!(Map::from_cells(&cells).check(&arena), Err(Refusal::State));
    /// ```
    pub fn check(&self, arena: &Arena) -> Result<(), Refusal> {
        done(raw::galthumir_check_map(&arena.cells, &self.cells))
    }

    /// Reads all entries. Refusals: 11, 1.
    ///
    /// ```
    /// use galthumir::{Arena, Map};
    ///
    /// assert_eq!(Map::default().entries(&Arena::default())?, []);
    /// # Ok::<(), galthumir::Refusal>(())
    /// ```
    pub fn entries(&self, arena: &Arena) -> Result<Vec<Entry>, Refusal> {
        self.check(arena)?;
        Ok(self.rows().collect())
    }

    /// Inserts a key with its target and a dependency. A key that is there keeps its first target, and takes a
    /// dependency once. Refusals: 12, 11, 1, 5.
    ///
    /// ```
    /// use galthumir::{Arena, Entry, Key, Map};
    ///
    /// let mut arena = Arena::default();
    /// let [a, b] = [Key::asc(arena.add_column(0, 0)?), Key::asc(arena.add_column(1, 1)?)];
    /// let mut map = Map::default();
    /// map.insert(&arena, a, Some(a), None)?;
    /// map.insert(&arena, a, Some(b), Some(b))?;
    /// assert_eq!(map.entries(&arena)?, [Entry { key: a, target: Some(a), dependencies: vec![b] }]);
    /// # Ok::<(), galthumir::Refusal>(())
    /// ```
    pub fn insert(
        &mut self,
        arena: &Arena,
        key: Key,
        target: Option<Key>,
        dependency: Option<Key>,
    ) -> Result<(), Refusal> {
        let (expr, options) = numbers_of(Some(key));
        let (target, target_options) = numbers_of(target);
        let (other, other_options) = numbers_of(dependency);
        let (arena, map) = (&arena.cells, &mut self.cells);
        done(raw::galthumir_insert(arena, map, expr, options, target, target_options, other, other_options))
    }

    /// Enumerates the prefix orderings of a key: those that have to come before it. Refusals: 12, 11, 1, 6, 7, 5.
    ///
    /// ```
    /// use galthumir::{Arena, Key, Map};
    ///
    /// let mut arena = Arena::default();
    /// let [a, b] = [Key::asc(arena.add_column(0, 0)?), Key::asc(arena.add_column(1, 1)?)];
    /// let mut map = Map::default();
    /// map.insert(&arena, a, None, Some(b))?;
    /// map.insert(&arena, b, Some(b), None)?;
    /// assert_eq!(map.construct_prefix_orderings(&arena, a)?, [[b]]);
    /// # Ok::<(), galthumir::Refusal>(())
    /// ```
    pub fn construct_prefix_orderings(&self, arena: &Arena, key: Key) -> Result<Vec<Vec<Key>>, Refusal> {
        let mut output = vec![0; ENUMERATION_OUTPUT];
        Ok(self.construct_prefix_orderings_into(arena, key, &mut output)?.orderings())
    }

    /// The same into lent output, in which nothing past the last ordering is changed. Refusals: 12, 11, 1, 6, 7, 5, 8.
    ///
    /// ```
    /// use galthumir::{Arena, Key, Map, Refusal};
    ///
    /// let mut arena = Arena::default();
    /// let [a, b] = [Key::asc(arena.add_column(0, 0)?), Key::asc(arena.add_column(1, 1)?)];
    /// let mut map = Map::default();
    /// map.insert(&arena, a, None, Some(b))?;
    /// map.insert(&arena, b, Some(b), None)?;
    /// assert_eq!(map.construct_prefix_orderings_into(&arena, a, &mut [0; 3])?.orderings(), [[b]]);
    /// assert_eq!(map.construct_prefix_orderings_into(&arena, a, &mut [0; 2]), Err(Refusal::OutputShort));
    /// # Ok::<(), Refusal>(())
    /// ```
    pub fn construct_prefix_orderings_into<'a>(
        &self,
        arena: &Arena,
        key: Key,
        output: &'a mut [u16],
    ) -> Result<Enumerated<'a>, Refusal> {
        let (arena, map) = (&arena.cells, &self.cells);
        let (expr, options) = numbers_of(Some(key));
        let written = answered(|answer| {
            // SAFETY: the pointer and the count are those of one slice.
            unsafe {
                let (start, places) = (output.as_mut_ptr(), output.len());
                raw::galthumir_construct_prefix_orderings(arena, map, expr, options, start, places, answer)
            }
        })?;
        Ok(Enumerated::written(written, output))
    }

    /// Enumerates the orderings of some keys: one prefix ordering of each key that has any, in all ways and all orders.
    /// Refusals: 12, 11, 1, 6, 7, 5.
    ///
    /// ```
    /// use galthumir::{Arena, Key, Map};
    ///
    /// let mut arena = Arena::default();
    /// let [a, b] = [Key::asc(arena.add_column(0, 0)?), Key::asc(arena.add_column(1, 1)?)];
    /// let [c, d] = [Key::asc(arena.add_column(2, 2)?), Key::desc(arena.add_column(3, 3)?)];
    /// let mut map = Map::default();
    /// map.insert(&arena, a, Some(a), Some(c))?;
    /// map.insert(&arena, b, Some(b), Some(d))?;
    /// map.insert(&arena, c, Some(c), None)?;
    /// map.insert(&arena, d, Some(d), None)?;
    /// assert_eq!(map.generate_dependency_orderings(&arena, &[a, b])?, [[c, d], [d, c]]);
    /// # Ok::<(), galthumir::Refusal>(())
    /// ```
    pub fn generate_dependency_orderings(&self, arena: &Arena, keys: &[Key]) -> Result<Vec<Vec<Key>>, Refusal> {
        let mut output = vec![0; ENUMERATION_OUTPUT];
        Ok(self.generate_dependency_orderings_into(arena, keys, &mut output)?.orderings())
    }

    /// The same into lent output, in which nothing past the last ordering is changed. Refusals: 12, 11, 1, 6, 7, 5, 8.
    ///
    /// ```
    /// use galthumir::{Arena, Key, Map};
    ///
    /// let mut arena = Arena::default();
    /// let [a, b] = [Key::asc(arena.add_column(0, 0)?), Key::asc(arena.add_column(1, 1)?)];
    /// let mut map = Map::default();
    /// map.insert(&arena, a, Some(a), Some(b))?;
    /// map.insert(&arena, b, Some(b), None)?;
    /// let mut output = [0; galthumir::layout::ENUMERATION_OUTPUT];
    /// let enumerated = map.generate_dependency_orderings_into(&arena, &[a], &mut output)?;
    /// assert_eq!(enumerated.orderings(), [[b]]);
    /// # Ok::<(), galthumir::Refusal>(())
    /// ```
    pub fn generate_dependency_orderings_into<'a>(
        &self,
        arena: &Arena,
        keys: &[Key],
        output: &'a mut [u16],
    ) -> Result<Enumerated<'a>, Refusal> {
        let (arena, map) = (&arena.cells, &self.cells);
        let keys = lent::keys(keys);
        let written = answered(|answer| {
            // SAFETY: each pointer and the count after it are those of one slice.
            unsafe {
                let (start, places) = (output.as_mut_ptr(), output.len());
                raw::galthumir_generate_dependency_orderings(
                    arena,
                    map,
                    keys.as_ptr(),
                    keys.len(),
                    start,
                    places,
                    answer,
                )
            }
        })?;
        Ok(Enumerated::written(written, output))
    }

    /// What the cells say of each key.
    fn rows(&self) -> impl Iterator<Item = Entry> + '_ {
        self.cells[MAP_LIST..].chunks_exact(MAP_NODE_CELLS).take(self.cells[MAP_COUNT].into()).map(Entry::of)
    }
}

/// Expression and options of a key, or what stands for none.
fn numbers_of(key: Option<Key>) -> (u32, u32) {
    key.map_or((NONE, 0), |key| (key.expr.into(), key.options.number()))
}

/// Shows each entry.
impl fmt::Debug for Map {
    fn fmt(&self, f: &mut fmt::Formatter<'_>) -> fmt::Result {
        f.write_str("Map ")?;
        f.debug_list().entries(self.rows()).finish()
    }
}
