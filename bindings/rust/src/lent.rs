//! Lists laid out as the numbers that the calls are lent.

use std::fmt;

use crate::{Class, Expr, Key, Refusal};

/// Expressions as 32-bit numbers.
pub(crate) fn exprs(exprs: &[Expr]) -> Vec<u32> {
    exprs.iter().copied().map(u32::from).collect()
}

/// Left and right of each pair.
pub(crate) fn pairs(pairs: &[(Expr, Expr)]) -> Vec<u32> {
    pairs.iter().flat_map(|(left, right)| [u32::from(*left), u32::from(*right)]).collect()
}

/// Expression and options of each key.
pub(crate) fn keys(keys: &[Key]) -> Vec<u32> {
    keys.iter().flat_map(|key| [u32::from(key.expr), key.options.number()]).collect()
}

/// Flavour, value, member count and members of each class.
pub(crate) fn classes(classes: &[Class]) -> Result<Vec<u32>, Refusal> {
    let mut numbers = Vec::new();
    for class in classes {
        let (flavour, value) = class.constant.numbers();
        let size = u32::try_from(class.members.len()).map_err(|_| Refusal::GroupFull)?;
        numbers.extend([flavour, value, size]);
        numbers.extend(exprs(&class.members));
    }
    Ok(numbers)
}

/// Key count, then expression and options of each key, of each ordering. A list of keys that 16 bits can't count is
/// refused with 5.
pub(crate) fn orderings<K: AsRef<[Key]>>(orderings: &[K]) -> Result<Vec<u16>, Refusal> {
    let mut numbers = Vec::new();
    for keys in orderings.iter().map(AsRef::as_ref) {
        numbers.push(u16::try_from(keys.len()).map_err(|_| Refusal::TooLarge)?);
        numbers.extend(keys.iter().flat_map(|key| [key.expr, key.options.number() as u16]));
    }
    Ok(numbers)
}

/// A part of a state as it is shown: what its cells say or, where they say nothing, the cells.
pub(crate) enum Shown<T, C> {
    Said(T),
    Cells(C),
}

impl<T, C> Shown<T, C> {
    pub(crate) fn of(said: Option<T>, cells: C) -> Self {
        said.map_or(Shown::Cells(cells), Shown::Said)
    }
}

impl<T: fmt::Debug, C: fmt::Debug> fmt::Debug for Shown<T, C> {
    fn fmt(&self, f: &mut fmt::Formatter<'_>) -> fmt::Result {
        match self {
            Shown::Said(said) => said.fmt(f),
            Shown::Cells(cells) => cells.fmt(f),
        }
    }
}
