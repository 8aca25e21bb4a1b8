//! The walk that rewrites a tree: children first, from left to right, then the node itself, once.
//! The original can also be told to stop or to skip; nothing in the text does so, and it is left out.

use std::sync::Arc;

use crate::Result;

/// A rewritten value, and whether anything was changed in it.
pub struct Transformed<T> {
    pub data: T,
    pub transformed: bool,
}

impl<T> Transformed<T> {
    /// A value that was changed.
    pub fn yes(data: T) -> Self {
        Transformed { data, transformed: true }
    }

    /// A value that was left as it was.
    pub fn no(data: T) -> Self {
        Transformed { data, transformed: false }
    }
}

/// Takes the value out of a rewriting that went well.
pub trait TransformedResult<T> {
    fn data(self) -> Result<T>;
}

impl<T> TransformedResult<T> for Result<Transformed<T>> {
    fn data(self) -> Result<T> {
        self.map(|done| done.data)
    }
}

/// A tree that can be rewritten.
pub trait TreeNode: Sized {
    /// Rewrites the children alone.
    fn map_children<F>(self, rewrite: F) -> Result<Transformed<Self>>
    where
        F: FnMut(Self) -> Result<Transformed<Self>>;

    /// Rewrites the whole tree from the leaves up.
    fn transform<F>(self, mut rewrite: F) -> Result<Transformed<Self>>
    where
        F: FnMut(Self) -> Result<Transformed<Self>>,
    {
        transform_up(self, &mut rewrite)
    }
}

/// The children of `tree`, then what came of `tree`.
fn transform_up<T: TreeNode, F>(tree: T, rewrite: &mut F) -> Result<Transformed<T>>
where
    F: FnMut(T) -> Result<Transformed<T>>,
{
    let below = tree.map_children(|child| transform_up(child, rewrite))?;
    let whole = rewrite(below.data)?;
    Ok(Transformed { data: whole.data, transformed: below.transformed || whole.transformed })
}

/// What a type behind a shared pointer offers so that the pointer is a tree.
pub trait DynTreeNode {
    fn arc_children(&self) -> Vec<&Arc<Self>>;

    fn with_new_arc_children(self: Arc<Self>, children: Vec<Arc<Self>>) -> Result<Arc<Self>>;
}

impl<T: DynTreeNode + ?Sized> TreeNode for Arc<T> {
    fn map_children<F>(self, mut rewrite: F) -> Result<Transformed<Self>>
    where
        F: FnMut(Self) -> Result<Transformed<Self>>,
    {
        let mut changed = false;
        let mut children = Vec::new();
        for child in self.arc_children() {
            let done = rewrite(Arc::clone(child))?;
            changed |= done.transformed;
            children.push(done.data);
        }
        if !changed {
            return Ok(Transformed::no(self));
        }
        self.with_new_arc_children(children).map(Transformed::yes)
    }
}
