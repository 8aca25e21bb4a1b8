//! `new`: a group from a list of classes, and which lists document 01 leaves out of the comparison.

use std::collections::HashSet;

use datafusion_physical_expr::equivalence::class_parts::{class_with_constant, constant_of};
use datafusion_physical_expr::equivalence::{AcrossPartitions, EquivalenceClass, EquivalenceGroup};

use crate::arena::Arena;
use crate::constants::class_constant;
use crate::group::{Group, MOST_MEMBERS, refuse_too_large};
use crate::refusal::Refusal;

/// A class as a list gives it: its constant in two numbers, and the numbers of its members.
#[derive(Debug)]
pub struct ListedClass {
    pub flavour: u32,
    pub value: u32,
    pub members: Vec<usize>,
}

/// A group made of a list, and whether the list is outside the domain of the comparison.
pub struct Made {
    pub group: Group,
    pub outside_domain: bool,
}

/// The group that the Rust makes of a list, or the first refusal that applies.
pub fn new_group(arena: &Arena, list: &[ListedClass]) -> Result<Made, Refusal> {
    let constants =
        list.iter().map(|class| class_constant(class.flavour, class.value)).collect::<Result<Vec<_>, _>>()?;
    for (class, constant) in list.iter().zip(&constants) {
        refuse_broken(arena, class, constant.as_ref())?;
    }
    let list = list
        .iter()
        .zip(constants)
        .map(|(class, constant)| Ok(class_with_constant(arena.exprs(&class.members)?, constant)))
        .collect::<Result<Vec<_>, Refusal>>()?;
    refuse_too_large(&list, MOST_MEMBERS)?;
    let outside_domain = is_outside_domain(&list);
    Ok(Made { group: Group::of(EquivalenceGroup::new(list))?, outside_domain })
}

/// Refuses a class that has an expression twice, or a literal without a uniform constant.
fn refuse_broken(arena: &Arena, class: &ListedClass, constant: Option<&AcrossPartitions>) -> Result<(), Refusal> {
    let uniform = matches!(constant, Some(AcrossPartitions::Uniform(_)));
    let mut seen = HashSet::new();
    for member in &class.members {
        if !seen.insert(member) || (!uniform && arena.is_literal(*member)) {
            return Err(Refusal::BrokenRule);
        }
    }
    Ok(())
}

/// Whether a list holds a class of one member without constant whose member also stands in another class.
pub fn is_outside_domain(list: &[EquivalenceClass]) -> bool {
    list.iter()
        .filter(|class| class.len() == 1 && constant_of(class).is_none())
        .flat_map(|class| class.iter())
        .any(|member| list.iter().filter(|class| class.contains(member)).count() > 1)
}
