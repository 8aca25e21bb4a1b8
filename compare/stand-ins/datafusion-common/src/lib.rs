//! Stand-in for the crate datafusion-common: errors, values, join types, the walk over trees.

pub mod tree_node;

use std::fmt::{Display, Formatter};

pub use std::collections::HashSet;

/// An error is a sentence.
#[derive(Debug)]
pub struct DataFusionError(pub String);

pub type Result<T, E = DataFusionError> = std::result::Result<T, E>;

/// A literal's value is its 32-bit number.
#[derive(Clone, Debug, PartialEq, Eq, Hash)]
pub struct ScalarValue(pub u32);

impl Display for ScalarValue {
    fn fmt(&self, f: &mut Formatter<'_>) -> std::fmt::Result {
        write!(f, "{}", self.0)
    }
}

/// The ten join types, in the order of their numbers in document 01.
#[derive(Clone, Copy, Debug, PartialEq, Eq)]
pub enum JoinType {
    Inner,
    Left,
    Full,
    Right,
    LeftSemi,
    LeftAnti,
    LeftMark,
    RightSemi,
    RightAnti,
    RightMark,
}
