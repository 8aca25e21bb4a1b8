//! Not part of the text: what the text keeps to its own crate and a script of calls needs all the same. A class
//! of a list has the constant that the script says, and a class that is printed shows its constant.

use std::sync::Arc;

use super::{AcrossPartitions, EquivalenceClass};
use crate::PhysicalExpr;

/// The class with these members pushed, and then with this constant, whatever the members gave it.
pub fn class_with_constant(
    members: impl IntoIterator<Item = Arc<dyn PhysicalExpr>>,
    constant: Option<AcrossPartitions>,
) -> EquivalenceClass {
    let mut class = EquivalenceClass::new(members);
    class.constant = constant;
    class
}

/// The constant of a class, if it has one.
pub fn constant_of(class: &EquivalenceClass) -> Option<&AcrossPartitions> {
    class.constant.as_ref()
}
