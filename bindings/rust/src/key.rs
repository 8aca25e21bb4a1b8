//! Sort keys.

use crate::layout::{DESCENDING, NULLS_FIRST};
use crate::Expr;

/// How a key sorts. The default is ascending with nulls last.
#[derive(Clone, Copy, Debug, Default, PartialEq, Eq, Hash)]
pub struct Options {
    /// Larger values come first.
    pub descending: bool,
    /// Nulls come first.
    pub nulls_first: bool,
}

impl Options {
    /// The options as a number: 1 for descending plus 2 for nulls first.
    ///
    /// ```
    /// use galthumir::Options;
    ///
    /// assert_eq!(Options { descending: true, nulls_first: true }.number(), 3);
    /// ```
    pub fn number(self) -> u32 {
        DESCENDING * u32::from(self.descending) + NULLS_FIRST * u32::from(self.nulls_first)
    }

    /// The options of this number, of which only the two lowest bits are read.
    pub(crate) fn of(number: u32) -> Options {
        Options { descending: number & DESCENDING != 0, nulls_first: number & NULLS_FIRST != 0 }
    }
}

/// A sort key: an expression, and how it sorts.
#[derive(Clone, Copy, Debug, PartialEq, Eq, Hash)]
pub struct Key {
    /// The expression.
    pub expr: Expr,
    /// How it sorts.
    pub options: Options,
}

impl Key {
    /// An ascending key with nulls last.
    ///
    /// ```
    /// use galthumir::{Key, Options};
    ///
    /// assert_eq!(Key::asc(4), Key { expr: 4, options: Options::default() });
    /// ```
    pub fn asc(expr: Expr) -> Key {
        Key { expr, options: Options::default() }
    }

    /// A descending key with nulls last.
    ///
    /// ```
    /// use galthumir::Key;
    ///
    /// assert!(Key::desc(4).options.descending);
    /// ```
    pub fn desc(expr: Expr) -> Key {
        Key { expr, options: Options { descending: true, nulls_first: false } }
    }

    /// The key that a cell of a state holds: expression * 4 + options.
    pub(crate) fn of_cell(cell: u16) -> Key {
        Key { expr: cell / 4, options: Options::of(u32::from(cell) % 4) }
    }

    /// The keys of an ordering's cells.
    pub(crate) fn of_ordering(cells: &[u16]) -> Vec<Key> {
        let (size, places) = cells.split_first().expect("an ordering has a cell for its size");
        places.iter().take(usize::from(*size)).map(|cell| Key::of_cell(*cell)).collect()
    }
}
