//! The Rust text. The modules `class` and `ordering`, and `dependency` of `properties`, are files of the text, taken in
//! whole from the folder that build.rs found. Another file of the text is added here and in build.rs.

#[allow(dead_code)]
mod class {
    include!(concat!(env!("GALTHUMIR_RUST_TEXT"), "/src/equivalence/class.rs"));
}

pub mod class_parts;

#[allow(dead_code)]
mod ordering {
    include!(concat!(env!("GALTHUMIR_RUST_TEXT"), "/src/equivalence/ordering.rs"));
}

pub mod properties;

pub use crate::projection::ProjectionMapping;
pub use class::{AcrossPartitions, ConstExpr, EquivalenceClass, EquivalenceGroup};
pub use ordering::OrderingEquivalenceClass;
