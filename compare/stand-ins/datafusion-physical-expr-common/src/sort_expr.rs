//! Sort keys, sort requirements, and orderings that name no expression twice.

use std::fmt::{Display, Formatter};
use std::ops::Deref;
use std::sync::Arc;

use arrow::compute::SortOptions;

use crate::physical_expr::PhysicalExpr;

/// A sort key: an expression and how it is sorted.
#[derive(Clone, Debug, Eq, Hash)]
pub struct PhysicalSortExpr {
    pub expr: Arc<dyn PhysicalExpr>,
    pub options: SortOptions,
}

impl PartialEq for PhysicalSortExpr {
    fn eq(&self, other: &Self) -> bool {
        self.expr.eq(&other.expr) && self.options == other.options
    }
}

impl Display for PhysicalSortExpr {
    fn fmt(&self, f: &mut Formatter<'_>) -> std::fmt::Result {
        let order = if self.options.descending { "DESC" } else { "ASC" };
        let nulls = if self.options.nulls_first { "FIRST" } else { "LAST" };
        write!(f, "{} {order} NULLS {nulls}", self.expr)
    }
}

/// A required sort key, where how it is sorted may be left open.
#[derive(Clone, Debug)]
pub struct PhysicalSortRequirement {
    pub expr: Arc<dyn PhysicalExpr>,
    pub options: Option<SortOptions>,
}

/// An ordering: at least one key, and no expression twice.
///
/// The original is not in the text at hand. Building, pushing and extending drop a key whose expression is
/// already there, with any options, as document 01 says under "Orderings". That cutting to nothing answers no
/// and leaves the ordering alone follows from its use in `resolve_overlap`.
#[derive(Clone, Debug, PartialEq, Eq)]
pub struct LexOrdering {
    keys: Vec<PhysicalSortExpr>,
}

impl LexOrdering {
    /// The ordering of these keys, or none if there is no key.
    pub fn new(keys: impl IntoIterator<Item = PhysicalSortExpr>) -> Option<Self> {
        let mut ordering = LexOrdering { keys: Vec::new() };
        ordering.extend(keys);
        (!ordering.keys.is_empty()).then_some(ordering)
    }

    /// The leading key.
    pub fn first(&self) -> &PhysicalSortExpr {
        &self.keys[0]
    }

    /// Adds a key at the end, unless its expression is there.
    pub fn push(&mut self, key: PhysicalSortExpr) {
        if self.keys.iter().all(|old| !old.expr.eq(&key.expr)) {
            self.keys.push(key);
        }
    }

    /// Adds keys one after the other.
    pub fn extend(&mut self, keys: impl IntoIterator<Item = PhysicalSortExpr>) {
        for key in keys {
            self.push(key);
        }
    }

    /// Keeps the first `length` keys and answers yes. No key, or all and more, can't be kept: no.
    pub fn truncate(&mut self, length: usize) -> bool {
        let possible = 0 < length && length < self.keys.len();
        if possible {
            self.keys.truncate(length);
        }
        possible
    }
}

/// The ordering of an array of at least one key.
impl<const COUNT: usize> From<[PhysicalSortExpr; COUNT]> for LexOrdering {
    fn from(keys: [PhysicalSortExpr; COUNT]) -> Self {
        LexOrdering::new(keys).expect("an ordering has a key")
    }
}

impl Deref for LexOrdering {
    type Target = [PhysicalSortExpr];

    fn deref(&self) -> &Self::Target {
        &self.keys
    }
}

impl IntoIterator for LexOrdering {
    type Item = PhysicalSortExpr;
    type IntoIter = std::vec::IntoIter<PhysicalSortExpr>;

    fn into_iter(self) -> Self::IntoIter {
        self.keys.into_iter()
    }
}

impl Display for LexOrdering {
    fn fmt(&self, f: &mut Formatter<'_>) -> std::fmt::Result {
        let shown: Vec<String> = self.keys.iter().map(|key| key.to_string()).collect();
        f.write_str(&shown.join(", "))
    }
}
