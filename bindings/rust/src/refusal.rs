//! The refusals, and what is made of the number that a call returns.

use std::error::Error;
use std::fmt;

/// Why a call was refused. A refused call has changed nothing.
///
/// The cases stand in the order in which they are tested.
///
/// ```
/// use galthumir::{Group, Refusal};
///
/// let refusal = Group::open(0).unwrap_err();
/// assert_eq!(refusal, Refusal::Number);
/// assert_eq!(refusal.number(), 12);
/// assert_eq!(refusal.to_string(), "a number is outside its set");
/// ```
#[derive(Clone, Copy, Debug, PartialEq, Eq, Hash)]
pub enum Refusal {
    /// 9: a record is malformed.
    Malformed = 9,
    /// 12: a number is outside its set.
    Number = 12,
    /// 11: a lent state breaks a rule.
    State = 11,
    /// 1: an expression number is not below the node count.
    Expression = 1,
    /// 2: a node has more than 8 children.
    Children = 2,
    /// 10: a shifted column index leaves 0..65,535.
    Index = 10,
    /// 6: a key that the walk refers to is not in the dependency map.
    UnknownKey = 6,
    /// 7: a node that the walk expands has no target.
    NoTarget = 7,
    /// 3: the nodes to be added don't fit the arena.
    ArenaFull = 3,
    /// 4: members or classes exceed the limit.
    GroupFull = 4,
    /// 5: an ordering, list of orderings, dependency table or enumeration exceeds its bound.
    TooLarge = 5,
    /// 8: the lent output is too short.
    OutputShort = 8,
}

impl Refusal {
    /// Every refusal, in the order in which they are tested.
    ///
    /// ```
    /// use galthumir::Refusal;
    ///
    /// assert_eq!(Refusal::ALL.map(Refusal::number), [9, 12, 11, 1, 2, 10, 6, 7, 3, 4, 5, 8]);
    /// ```
    pub const ALL: [Refusal; 12] = [
        Refusal::Malformed,
        Refusal::Number,
        Refusal::State,
        Refusal::Expression,
        Refusal::Children,
        Refusal::Index,
        Refusal::UnknownKey,
        Refusal::NoTarget,
        Refusal::ArenaFull,
        Refusal::GroupFull,
        Refusal::TooLarge,
        Refusal::OutputShort,
    ];

    /// The refusal's number, 1 to 12.
    ///
    /// ```
    /// assert_eq!(galthumir::Refusal::ArenaFull.number(), 3);
    /// ```
    pub fn number(self) -> u32 {
        self as u32
    }

    /// The refusal with this number, if there is one.
    ///
    /// ```
    /// use galthumir::Refusal;
    ///
    /// assert_eq!(Refusal::from_number(3), Some(Refusal::ArenaFull));
    /// assert_eq!(Refusal::from_number(0), None);
    /// ```
    pub fn from_number(number: u32) -> Option<Refusal> {
        Refusal::ALL.into_iter().find(|refusal| refusal.number() == number)
    }

    /// The refusal in words.
    fn words(self) -> &'static str {
        match self {
            Refusal::Malformed => "a record is malformed",
            Refusal::Number => "a number is outside its set",
            Refusal::State => "a lent state breaks a rule",
            Refusal::Expression => "an expression number is not below the node count",
            Refusal::Children => "a node has more than 8 children",
            Refusal::Index => "a shifted column index leaves 0..65,535",
            Refusal::UnknownKey => "a key that the walk refers to is not in the dependency map",
            Refusal::NoTarget => "a node that the walk expands has no target",
            Refusal::ArenaFull => "the nodes to be added don't fit the arena",
            Refusal::GroupFull => "members or classes exceed the limit",
            Refusal::TooLarge => "an ordering, list of orderings, dependency table or enumeration exceeds its bound",
            Refusal::OutputShort => "the lent output is too short",
        }
    }
}

impl fmt::Display for Refusal {
    fn fmt(&self, f: &mut fmt::Formatter<'_>) -> fmt::Result {
        f.write_str(self.words())
    }
}

impl Error for Refusal {}

/// What the number that a call returns says: 0 is done.
pub(crate) fn done(number: u32) -> Result<(), Refusal> {
    match number {
        0 => Ok(()),
        _ => Err(Refusal::from_number(number).expect("the archive is of this crate's version")),
    }
}

/// The answer of a call that writes one.
pub(crate) fn answered<T, const N: usize>(call: impl FnOnce(&mut [T; N]) -> u32) -> Result<[T; N], Refusal>
where
    T: Copy + Default,
{
    let mut answer = [T::default(); N];
    done(call(&mut answer))?;
    Ok(answer)
}
