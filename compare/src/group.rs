//! A group of the Rust text with the bounds of document 01. A step is done on a copy, and the copy is kept only
//! where it is within the bounds.

use std::ops::Deref;
use std::sync::Arc;

use datafusion_physical_expr::PhysicalExpr;
use datafusion_physical_expr::equivalence::{AcrossPartitions, ConstExpr, EquivalenceClass, EquivalenceGroup};

use crate::refusal::Refusal;

pub const MOST_MEMBERS: usize = 256;
const MOST_CLASSES: usize = 64;

pub struct Group {
    classes: EquivalenceGroup,
    limit: usize,
}

/// An empty group that takes as many members as a group can.
impl Default for Group {
    fn default() -> Self {
        Group { classes: EquivalenceGroup::default(), limit: MOST_MEMBERS }
    }
}

impl Group {
    /// An empty group with this member limit.
    pub fn open(limit: u32) -> Result<Self, Refusal> {
        match limit as usize {
            limit @ 1..=MOST_MEMBERS => Ok(Group { limit, ..Group::default() }),
            _ => Err(Refusal::OutsideSet),
        }
    }

    /// A group of the largest limit with the classes that the Rust made.
    pub fn of(classes: EquivalenceGroup) -> Result<Self, Refusal> {
        refuse_too_large(&classes, MOST_MEMBERS)?;
        Ok(Group { classes, limit: MOST_MEMBERS })
    }

    /// Adds an equal condition; answers whether it made a new class.
    pub fn add_equal(&mut self, left: Arc<dyn PhysicalExpr>, right: Arc<dyn PhysicalExpr>) -> Result<bool, Refusal> {
        self.change(|classes| classes.add_equal_conditions(left, right))
    }

    pub fn add_constant(&mut self, expr: Arc<dyn PhysicalExpr>, constant: AcrossPartitions) -> Result<(), Refusal> {
        self.change(|classes| classes.add_constant(ConstExpr::new(expr, constant)))
    }

    /// Drops heterogeneous constants; answers whether there were any.
    pub fn clear(&mut self) -> bool {
        self.classes.clear_per_partition_constants()
    }

    /// The members of all classes.
    pub fn members(&self) -> usize {
        member_count(&self.classes)
    }

    /// Does a step on a copy, and takes the copy over unless it is too large.
    fn change<T>(&mut self, step: impl FnOnce(&mut EquivalenceGroup) -> T) -> Result<T, Refusal> {
        let mut changed = self.classes.clone();
        let answer = step(&mut changed);
        refuse_too_large(&changed, self.limit)?;
        self.classes = changed;
        Ok(answer)
    }
}

/// Questions go to the Rust's group as it is.
impl Deref for Group {
    type Target = EquivalenceGroup;

    fn deref(&self) -> &Self::Target {
        &self.classes
    }
}

/// Refuses more classes than a group can have, or more members than the limit. A member of two classes of a list
/// counts twice.
pub fn refuse_too_large(classes: &[EquivalenceClass], limit: usize) -> Result<(), Refusal> {
    if classes.len() > MOST_CLASSES || member_count(classes) > limit {
        return Err(Refusal::GroupFull);
    }
    Ok(())
}

fn member_count(classes: &[EquivalenceClass]) -> usize {
    classes.iter().map(|class| class.len()).sum()
}
