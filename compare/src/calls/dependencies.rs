//! The commands on dependency maps.

use datafusion_physical_expr::equivalence::properties::DependencyMap;

use super::Calls;
use crate::dependencies::{Insert, dependency_orderings, inserted, prefix_orderings};
use crate::keys::Key;
use crate::refusal::Refusal;
use crate::showing::{print_map, print_orderings};

impl Calls {
    pub(super) fn open_map(&mut self, name: &str) {
        self.state.maps.keep(name, DependencyMap::default());
        self.print_ok();
    }

    pub(super) fn insert(&mut self, name: &str, insert: &Insert) -> Result<(), Refusal> {
        let changed = inserted(&self.state.arena, self.state.maps.get(name), insert)?;
        self.state.maps.keep(name, changed);
        self.print_map(name);
        Ok(())
    }

    pub(super) fn print_map(&mut self, name: &str) {
        print_map(&self.state.arena, self.state.maps.get(name), &mut self.lines);
    }

    pub(super) fn print_prefixes(&mut self, name: &str, key: Key) -> Result<(), Refusal> {
        let found = prefix_orderings(&self.state.arena, self.state.maps.get(name), key)?;
        print_orderings(&self.state.arena, &found, &mut self.lines);
        Ok(())
    }

    pub(super) fn print_generated(&mut self, name: &str, keys: &[Key]) -> Result<(), Refusal> {
        let found = dependency_orderings(&self.state.arena, self.state.maps.get(name), keys)?;
        print_orderings(&self.state.arena, &found, &mut self.lines);
        Ok(())
    }
}
