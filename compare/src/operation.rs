//! The test type of an operation: a label over children, compared by both. Its hash is made once, so that
//! looking an operation up doesn't walk its tree.

use std::fmt::{Display, Formatter};
use std::hash::{DefaultHasher, Hash, Hasher};
use std::sync::Arc;

use datafusion_common::Result;
use datafusion_physical_expr::PhysicalExpr;

use crate::work;

#[derive(Debug)]
pub struct Operation {
    label: u32,
    children: Vec<Arc<dyn PhysicalExpr>>,
    hash: u64,
}

impl Operation {
    pub fn new(label: u32, children: Vec<Arc<dyn PhysicalExpr>>) -> Self {
        let mut hasher = DefaultHasher::new();
        (label, &children).hash(&mut hasher);
        Operation { label, children, hash: hasher.finish() }
    }

    pub fn label(&self) -> u32 {
        self.label
    }
}

impl PartialEq for Operation {
    fn eq(&self, other: &Self) -> bool {
        work::step();
        self.hash == other.hash && self.label == other.label && self.children == other.children
    }
}

impl Eq for Operation {}

impl Hash for Operation {
    fn hash<H: Hasher>(&self, state: &mut H) {
        self.hash.hash(state);
    }
}

impl Display for Operation {
    fn fmt(&self, f: &mut Formatter<'_>) -> std::fmt::Result {
        let children: Vec<String> = self.children.iter().map(|child| child.to_string()).collect();
        write!(f, "f{}({})", self.label, children.join(", "))
    }
}

impl PhysicalExpr for Operation {
    fn children(&self) -> Vec<&Arc<dyn PhysicalExpr>> {
        work::step();
        self.children.iter().collect()
    }

    fn with_new_children(self: Arc<Self>, children: Vec<Arc<dyn PhysicalExpr>>) -> Result<Arc<dyn PhysicalExpr>> {
        Ok(Arc::new(Operation::new(self.label, children)))
    }
}
