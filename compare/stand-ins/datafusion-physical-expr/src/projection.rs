//! A projection mapping: for each source expression its targets, with their places. It has the form that the Rust
//! crate's projection.rs gives it.

use std::ops::Deref;
use std::sync::Arc;

use indexmap::IndexMap;

use crate::PhysicalExpr;

type Target = (Arc<dyn PhysicalExpr>, usize);

/// The targets of one source, at least one.
#[derive(Clone, Debug, Default)]
pub struct ProjectionTargets {
    targets: Vec<Target>,
}

impl ProjectionTargets {
    pub fn first(&self) -> &Target {
        self.targets.first().expect("a source has a target")
    }
}

impl Deref for ProjectionTargets {
    type Target = [Target];

    fn deref(&self) -> &Self::Target {
        &self.targets
    }
}

impl From<Vec<Target>> for ProjectionTargets {
    fn from(targets: Vec<Target>) -> Self {
        ProjectionTargets { targets }
    }
}

/// Sources with their targets, in order of arrival.
#[derive(Clone, Debug)]
pub struct ProjectionMapping {
    map: IndexMap<Arc<dyn PhysicalExpr>, ProjectionTargets>,
}

impl Deref for ProjectionMapping {
    type Target = IndexMap<Arc<dyn PhysicalExpr>, ProjectionTargets>;

    fn deref(&self) -> &Self::Target {
        &self.map
    }
}

impl FromIterator<(Arc<dyn PhysicalExpr>, ProjectionTargets)> for ProjectionMapping {
    fn from_iter<I: IntoIterator<Item = (Arc<dyn PhysicalExpr>, ProjectionTargets)>>(pairs: I) -> Self {
        ProjectionMapping { map: pairs.into_iter().collect() }
    }
}
