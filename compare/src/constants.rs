//! Constants as numbers, a flavour and a value, and in the Rust's form.

use datafusion_common::ScalarValue;
use datafusion_physical_expr::equivalence::AcrossPartitions;

use crate::refusal::Refusal;

/// The constant of this flavour: 0 heterogeneous, 1 unknown, 2 known. A value where none is known has to be 0.
pub fn constant(flavour: u32, value: u32) -> Result<AcrossPartitions, Refusal> {
    match (flavour, value) {
        (0, 0) => Ok(AcrossPartitions::Heterogeneous),
        (1, 0) => Ok(AcrossPartitions::Uniform(None)),
        (2, _) => Ok(AcrossPartitions::Uniform(Some(ScalarValue(value)))),
        _ => Err(Refusal::OutsideSet),
    }
}

/// The constant of a class: flavour 0 is none, and the flavours above follow as 1, 2 and 3.
pub fn class_constant(flavour: u32, value: u32) -> Result<Option<AcrossPartitions>, Refusal> {
    match (flavour, value) {
        (0, 0) => Ok(None),
        (0, _) => Err(Refusal::OutsideSet),
        _ => constant(flavour - 1, value).map(Some),
    }
}

/// The flavour and the value of a class's constant, as `class_constant` reads them.
pub fn flavour_and_value(constant: Option<&AcrossPartitions>) -> (u32, u32) {
    match constant {
        None => (0, 0),
        Some(AcrossPartitions::Heterogeneous) => (1, 0),
        Some(AcrossPartitions::Uniform(None)) => (2, 0),
        Some(AcrossPartitions::Uniform(Some(value))) => (3, value.0),
    }
}
