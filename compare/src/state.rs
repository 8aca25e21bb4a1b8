//! What a script works on: the nodes, and states of four kinds by their names.

use std::collections::HashMap;

use datafusion_physical_expr::equivalence::OrderingEquivalenceClass;
use datafusion_physical_expr::equivalence::properties::DependencyMap;

use crate::arena::Arena;
use crate::commands::Command;
use crate::group::Group;
use crate::projecting::MappedSource;
use crate::refusal::Refusal;

/// How many states of one kind a script can name.
const MOST_NAMES: usize = 16;

/// A mapping is kept as it was given; what is wrong with it is refused where it is used.
pub type Mapping = Vec<MappedSource>;

#[derive(Default)]
pub struct State {
    pub arena: Arena,
    pub groups: Named<Group>,
    pub mappings: Named<Mapping>,
    pub orderings: Named<OrderingEquivalenceClass>,
    pub maps: Named<DependencyMap>,
}

impl State {
    /// Whether there is room for the name under which the command keeps a state.
    pub fn has_room_for(&self, command: &Command) -> bool {
        match command {
            Command::Open { group: name, .. }
            | Command::New { group: name, .. }
            | Command::AddEqual { group: name, .. }
            | Command::AddConstant { group: name, .. }
            | Command::Clear { group: name }
            | Command::Join { made: name, .. }
            | Command::Project { made: name, .. } => self.groups.has_room_for(name),
            Command::Map { mapping: name, .. } => self.mappings.has_room_for(name),
            Command::NewOrderings { made: name, .. }
            | Command::AddOrderings { orderings: name, .. }
            | Command::ExtendOrderings { orderings: name, .. }
            | Command::ClearOrderings { orderings: name }
            | Command::JoinSuffix { made: name, .. }
            | Command::AddOffset { orderings: name, .. } => self.orderings.has_room_for(name),
            Command::OpenMap { map: name } | Command::Insert { map: name, .. } => self.maps.has_room_for(name),
            _ => true,
        }
    }
}

/// States of one kind by their names. A name under which none is kept stands for an empty state.
#[derive(Default)]
pub struct Named<T> {
    kept: HashMap<String, T>,
    empty: T,
}

impl<T: Default> Named<T> {
    pub fn get(&self, name: &str) -> &T {
        self.kept.get(name).unwrap_or(&self.empty)
    }

    pub fn keep(&mut self, name: &str, state: T) {
        self.kept.insert(name.to_string(), state);
    }

    /// Changes the state of this name. Where the change is refused nothing is kept.
    pub fn change<R>(&mut self, name: &str, step: impl FnOnce(&mut T) -> Result<R, Refusal>) -> Result<R, Refusal> {
        if let Some(state) = self.kept.get_mut(name) {
            return step(state);
        }
        let mut state = T::default();
        let answer = step(&mut state)?;
        self.keep(name, state);
        Ok(answer)
    }

    fn has_room_for(&self, name: &str) -> bool {
        self.kept.contains_key(name) || self.kept.len() < MOST_NAMES
    }
}
