//! The kinds of a join.

/// The kind of a join, with its number.
#[derive(Clone, Copy, Debug, PartialEq, Eq, Hash)]
pub enum JoinKind {
    /// Rows that meet the conditions.
    Inner = 0,
    /// Those, and left rows that meet none.
    Left = 1,
    /// Those, and rows of both sides that meet none.
    Full = 2,
    /// Those, and right rows that meet none.
    Right = 3,
    /// Left rows that meet some right row.
    LeftSemi = 4,
    /// Left rows that meet no right row.
    LeftAnti = 5,
    /// Left rows, marked by whether they meet a right row.
    LeftMark = 6,
    /// Right rows that meet some left row.
    RightSemi = 7,
    /// Right rows that meet no left row.
    RightAnti = 8,
    /// Right rows, marked by whether they meet a left row.
    RightMark = 9,
}

impl JoinKind {
    /// Every kind, in the order of their numbers.
    ///
    /// ```
    /// use galthumir::JoinKind;
    ///
    /// assert_eq!(JoinKind::ALL[7], JoinKind::RightSemi);
    /// ```
    pub const ALL: [JoinKind; 10] = [
        JoinKind::Inner,
        JoinKind::Left,
        JoinKind::Full,
        JoinKind::Right,
        JoinKind::LeftSemi,
        JoinKind::LeftAnti,
        JoinKind::LeftMark,
        JoinKind::RightSemi,
        JoinKind::RightAnti,
        JoinKind::RightMark,
    ];
}
