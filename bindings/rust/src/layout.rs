//! The bounds of the calls, and how a state lies in its cells.
//!
//! These are the numbers of `include/galthumir.h` under the same names, without `GALTHUMIR_`.

/// Nodes of an arena.
pub const MAX_NODES: usize = 1024;
/// Children of a node.
pub const MAX_CHILDREN: usize = 8;
/// Classes of a group.
pub const MAX_CLASSES: usize = 64;
/// Members of all classes of a group, and the largest member limit.
pub const MAX_MEMBERS: usize = 256;
/// Orderings of a list.
pub const MAX_ORDERINGS: usize = 32;
/// Keys of an ordering.
pub const MAX_KEYS: usize = 16;
/// Keys of a dependency map.
pub const MAX_MAP_KEYS: usize = 64;
/// Dependencies of a key, and of an enumeration.
pub const MAX_DEPENDENCIES: usize = 16;
/// Sources of a mapping.
pub const MAX_SOURCES: usize = 64;
/// Targets of a source.
pub const MAX_TARGETS: usize = 8;
/// Orderings of an enumeration.
pub const MAX_ENUMERATED: usize = 1024;
/// Bytes of a session's records.
pub const MAX_SESSION_BYTES: usize = 65536;
/// Output of this many bytes is never too short for a session.
pub const SESSION_OUTPUT: usize = 131096;
/// Output of this many places is never too short for an enumeration.
pub const ENUMERATION_OUTPUT: usize = 33792;

/// Cells of an arena.
pub const ARENA_CELLS: usize = 11265;
/// Cell of an arena: how many nodes it has.
pub const ARENA_COUNT: usize = 0;
/// First cell of an arena's first node; the nodes follow each other.
pub const ARENA_NODES: usize = 1;
/// Cells of a node.
pub const NODE_CELLS: usize = 11;
/// Cell of a node: its kind.
pub const NODE_KIND: usize = 0;
/// Cell of a node: a column's name * 65,536 + index, a literal's value, an operation's label.
pub const NODE_PAYLOAD: usize = 1;
/// Cell of a node: how many children it has.
pub const NODE_CHILD_COUNT: usize = 2;
/// First of a node's 8 cells for children.
pub const NODE_CHILDREN: usize = 3;
/// Kind of a node: a column.
pub const COLUMN: u32 = 1;
/// Kind of a node: a literal.
pub const LITERAL: u32 = 2;
/// Kind of a node: an operation.
pub const OPERATION: u32 = 3;

/// Cells of a group.
pub const GROUP_CELLS: usize = 451;
/// Cell of a group: its member limit.
pub const GROUP_LIMIT: usize = 0;
/// Cell of a group: how many classes it has.
pub const GROUP_COUNT: usize = 1;
/// Cell of a group: how many members all its classes have.
pub const GROUP_USED: usize = 2;
/// First of a group's 64 cells for the sizes of its classes.
pub const GROUP_SIZES: usize = 3;
/// First of a group's 64 cells for the flavours of its classes.
pub const GROUP_FLAVOURS: usize = 67;
/// First of a group's 64 cells for the values of its classes.
pub const GROUP_VALUES: usize = 131;
/// First of a group's 256 cells for members, those of all classes in class order.
pub const GROUP_MEMBERS: usize = 195;

/// Flavour of a class: no constant.
pub const NO_CONSTANT: u32 = 0;
/// Flavour of a class: one value in each partition.
pub const HETEROGENEOUS: u32 = 1;
/// Flavour of a class: one value everywhere, which is not known.
pub const UNKNOWN: u32 = 2;
/// Flavour of a class: one value everywhere, which is known.
pub const KNOWN: u32 = 3;

/// What descending adds to a key's options.
pub const DESCENDING: u32 = 1;
/// What nulls first adds to a key's options.
pub const NULLS_FIRST: u32 = 2;

/// Cells of an ordering: how many keys it has, then 16 places for keys, each expression * 4 + options.
pub const ORDERING_CELLS: usize = 17;
/// Cells of a list of orderings.
pub const ORDERINGS_CELLS: usize = 545;
/// Cell of a list of orderings: how many there are.
pub const ORDERINGS_COUNT: usize = 0;
/// First cell of a list's first ordering; the orderings follow each other.
pub const ORDERINGS_LIST: usize = 1;

/// Cells of a dependency map.
pub const MAP_CELLS: usize = 1217;
/// Cell of a dependency map: how many keys it has.
pub const MAP_COUNT: usize = 0;
/// First cell of a map's first entry; the entries follow each other.
pub const MAP_LIST: usize = 1;
/// Cells of a map's entry.
pub const MAP_NODE_CELLS: usize = 19;
/// Cell of a map's entry: its key.
pub const MAP_NODE_KEY: usize = 0;
/// Cell of a map's entry: its target's key + 1, or 0 where it has no target.
pub const MAP_NODE_TARGET: usize = 1;
/// Cell of a map's entry: how many dependencies it has.
pub const MAP_NODE_SIZE: usize = 2;
/// First of an entry's 16 cells for dependencies.
pub const MAP_NODE_DEPENDENCIES: usize = 3;

/// Stands for "none" where a number is asked for.
pub const NONE: u32 = 4294967295;
