//! Projection mappings.

use crate::{lent, Expr};

/// A projection mapping: sources, and the targets that each becomes, in the order in which they were given.
///
/// The default has no sources. What is wrong with a mapping is refused where it is used: a source without targets with
/// 12; over 64 sources, over 8 targets or a source twice with 11; an expression that the arena doesn't have with 1.
///
/// ```
/// use galthumir::Mapping;
///
/// let mapping = Mapping::default().with(0, &[4]).with(1, &[5, 6]);
/// assert_ne!(mapping, Mapping::default());
/// ```
#[derive(Clone, Debug, Default, PartialEq, Eq)]
pub struct Mapping {
    /// Source, target count and targets of each source.
    pub(crate) numbers: Vec<u32>,
}

impl Mapping {
    /// The mapping with one source more.
    ///
    /// ```
    /// use galthumir::{Arena, Group, Mapping};
    ///
    /// let mut arena = Arena::default();
    /// let a = arena.add_column(0, 0)?;
    /// let x = arena.add_column(1, 0)?;
    /// let mapping = Mapping::default().with(a, &[x]);
    /// assert_eq!(Group::open(256)?.project_expr(&mut arena, &mapping, a)?, Some(x));
    /// # Ok::<(), galthumir::Refusal>(())
    /// ```
    pub fn with(mut self, source: Expr, targets: &[Expr]) -> Mapping {
        // A count that is cut down here is over 8 all the same, and refused.
        let count = u32::try_from(targets.len()).unwrap_or(u32::MAX);
        self.numbers.extend([u32::from(source), count]);
        self.numbers.extend(lent::exprs(targets));
        self
    }
}
