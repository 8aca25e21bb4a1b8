//! The refusals of document 01 that a session or a script can give, in the order in which they are
//! tested.

#[derive(Clone, Copy, Debug, PartialEq, Eq)]
pub enum Refusal {
    /// A record is malformed.
    Malformed = 9,
    /// A number is outside its set.
    OutsideSet = 12,
    /// A list of classes, a mapping or an ordering breaks a rule.
    BrokenRule = 11,
    /// An expression number is not below the node count.
    UnknownExpression = 1,
    /// A node has more than 8 children.
    TooManyChildren = 2,
    /// A shifted column index leaves 0..65,535.
    ColumnOutside = 10,
    /// A key that the walk refers to is not in the dependency map.
    NotInMap = 6,
    /// A key that the walk expands has no target.
    NoTarget = 7,
    /// The nodes to be added don't fit the arena.
    ArenaFull = 3,
    /// Members or classes exceed the limit.
    GroupFull = 4,
    /// An ordering, a list of orderings, a dependency map or an enumeration exceeds its bound.
    BeyondBound = 5,
}
