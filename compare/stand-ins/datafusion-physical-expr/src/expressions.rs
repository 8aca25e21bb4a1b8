//! Columns and literals.

use std::fmt::{Display, Formatter};
use std::sync::Arc;

use arrow::datatypes::SchemaRef;
use datafusion_common::{Result, ScalarValue};

use crate::PhysicalExpr;

/// A column: the number of its name, and its index.
#[derive(Clone, Debug, PartialEq, Eq, Hash)]
pub struct Column {
    name: u16,
    index: usize,
}

impl Column {
    pub fn new(name: u16, index: usize) -> Self {
        Column { name, index }
    }

    pub fn name(&self) -> u16 {
        self.name
    }

    pub fn index(&self) -> usize {
        self.index
    }
}

impl Display for Column {
    fn fmt(&self, f: &mut Formatter<'_>) -> std::fmt::Result {
        write!(f, "c{}@{}", self.name, self.index)
    }
}

/// A literal: its value.
#[derive(Clone, Debug, PartialEq, Eq, Hash)]
pub struct Literal {
    value: ScalarValue,
}

impl Literal {
    pub fn new(value: ScalarValue) -> Self {
        Literal { value }
    }

    pub fn value(&self) -> &ScalarValue {
        &self.value
    }
}

impl Display for Literal {
    fn fmt(&self, f: &mut Formatter<'_>) -> std::fmt::Result {
        write!(f, "{}", self.value)
    }
}

/// A leaf has no children, and stays itself over none.
macro_rules! leaf {
    ($type:ty) => {
        impl PhysicalExpr for $type {
            fn children(&self) -> Vec<&Arc<dyn PhysicalExpr>> {
                Vec::new()
            }

            fn with_new_children(self: Arc<Self>, _: Vec<Arc<dyn PhysicalExpr>>) -> Result<Arc<dyn PhysicalExpr>> {
                Ok(self)
            }
        }
    };
}

leaf!(Column);
leaf!(Literal);

/// Needed to compile `with_new_schema` of the text, which is left to the engine and never called.
pub fn with_new_schema(_: Arc<dyn PhysicalExpr>, _: &SchemaRef) -> Result<Arc<dyn PhysicalExpr>> {
    unimplemented!("schemas are left to the engine")
}
