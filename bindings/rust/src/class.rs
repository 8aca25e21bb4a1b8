//! Classes of equal expressions, and what is known of their values.

use crate::layout::{HETEROGENEOUS, KNOWN, NO_CONSTANT, UNKNOWN};
use crate::Expr;

/// What is known of a class's value.
#[derive(Clone, Copy, Debug, Default, PartialEq, Eq, Hash)]
pub enum Constant {
    /// It is not known to be constant.
    #[default]
    None,
    /// It is one value in each partition.
    Heterogeneous,
    /// It is one value everywhere, which is not known.
    Unknown,
    /// It is this value everywhere.
    Known(u32),
}

impl Constant {
    /// The constant of this flavour and value, if there is one.
    pub(crate) fn of(flavour: u32, value: u32) -> Option<Constant> {
        match (flavour, value) {
            (NO_CONSTANT, 0) => Some(Constant::None),
            (HETEROGENEOUS, 0) => Some(Constant::Heterogeneous),
            (UNKNOWN, 0) => Some(Constant::Unknown),
            (KNOWN, _) => Some(Constant::Known(value)),
            _ => None,
        }
    }

    /// The constant that the library answers.
    pub(crate) fn answered(flavour: u32, value: u32) -> Constant {
        Constant::of(flavour, value).expect("the library's flavours are 0 to 3, with a value where it is known")
    }

    /// The constant's flavour and value.
    pub(crate) fn numbers(self) -> (u32, u32) {
        match self {
            Constant::None => (NO_CONSTANT, 0),
            Constant::Heterogeneous => (HETEROGENEOUS, 0),
            Constant::Unknown => (UNKNOWN, 0),
            Constant::Known(value) => (KNOWN, value),
        }
    }
}

/// A class: its members in order of arrival, and what is known of their value.
#[derive(Clone, Debug, Default, PartialEq, Eq, Hash)]
pub struct Class {
    /// What is known of the members' value.
    pub constant: Constant,
    /// The expressions that are equal. The first stands for all in a normal form.
    pub members: Vec<Expr>,
}

impl Class {
    /// A class without constant.
    ///
    /// ```
    /// use galthumir::{Class, Constant};
    ///
    /// assert_eq!(Class::new(&[0, 1]), Class { constant: Constant::None, members: vec![0, 1] });
    /// ```
    pub fn new(members: &[Expr]) -> Class {
        Class { constant: Constant::None, members: members.to_vec() }
    }
}

/// Where the class of an expression is, and what is known of it.
#[derive(Clone, Copy, Debug, PartialEq, Eq, Hash)]
pub struct ClassAt {
    /// The class's place in its group, counted from 0.
    pub place: usize,
    /// How many members it has.
    pub size: usize,
    /// The first of them, which stands for all in a normal form.
    pub first: Expr,
    /// What is known of their value.
    pub constant: Constant,
}
