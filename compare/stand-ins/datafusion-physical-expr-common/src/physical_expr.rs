//! The trait of expressions, and what holds for every expression behind it.

use std::any::{Any, TypeId};
use std::fmt::{Debug, Display, Formatter};
use std::hash::{DefaultHasher, Hash, Hasher};
use std::sync::Arc;

use datafusion_common::Result;
use datafusion_common::tree_node::DynTreeNode;

/// An expression: its children, and itself over other children.
pub trait PhysicalExpr: Any + Debug + Display + DynEq + DynHash + Send + Sync {
    fn children(&self) -> Vec<&Arc<dyn PhysicalExpr>>;

    fn with_new_children(self: Arc<Self>, children: Vec<Arc<dyn PhysicalExpr>>) -> Result<Arc<dyn PhysicalExpr>>;
}

pub type PhysicalExprRef = Arc<dyn PhysicalExpr>;

impl dyn PhysicalExpr {
    /// The expression as one of type `T`, if it is of that type.
    pub fn downcast_ref<T: PhysicalExpr>(&self) -> Option<&T> {
        (self as &dyn Any).downcast_ref()
    }
}

/// Equality with a value of any type: of the same type and equal there.
pub trait DynEq {
    fn dyn_eq(&self, other: &dyn Any) -> bool;
}

impl<T: Eq + Any> DynEq for T {
    fn dyn_eq(&self, other: &dyn Any) -> bool {
        other.downcast_ref::<T>().is_some_and(|other| self == other)
    }
}

/// Hashing behind a pointer: one number for the type and the value.
pub trait DynHash {
    fn dyn_hash(&self) -> u64;
}

impl<T: Hash + Any> DynHash for T {
    fn dyn_hash(&self) -> u64 {
        let mut hasher = DefaultHasher::new();
        (TypeId::of::<T>(), self).hash(&mut hasher);
        hasher.finish()
    }
}

impl PartialEq for dyn PhysicalExpr {
    fn eq(&self, other: &Self) -> bool {
        self.dyn_eq(other)
    }
}

impl Eq for dyn PhysicalExpr {}

impl Hash for dyn PhysicalExpr {
    fn hash<H: Hasher>(&self, state: &mut H) {
        state.write_u64(self.dyn_hash());
    }
}

impl DynTreeNode for dyn PhysicalExpr {
    fn arc_children(&self) -> Vec<&Arc<Self>> {
        self.children()
    }

    fn with_new_arc_children(self: Arc<Self>, children: Vec<Arc<Self>>) -> Result<Arc<Self>> {
        self.with_new_children(children)
    }
}

/// Expressions in brackets, with commas.
pub fn format_physical_expr_list<'a>(exprs: impl IntoIterator<Item = &'a Arc<dyn PhysicalExpr>>) -> impl Display {
    let shown: Vec<String> = exprs.into_iter().map(|expr| expr.to_string()).collect();
    Shown(format!("[{}]", shown.join(", ")))
}

/// A text that is shown as it is.
struct Shown(String);

impl Display for Shown {
    fn fmt(&self, f: &mut Formatter<'_>) -> std::fmt::Result {
        f.write_str(&self.0)
    }
}
