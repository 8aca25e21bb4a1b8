//! What the check of a lent state costs alone. The Rust has no such check.

use std::time::Duration;

use crate::clock::Clock;
use crate::library::{self, DONE};
use crate::rows::shapes::{fours, tree};
use crate::rows::{Row, Side};
use crate::states::Terms;

/// Leaves of a tree of 999 nodes; a literal makes 1,000 of them.
const LEAVES: u16 = 500;

/// The members of a full group.
const MEMBERS: usize = 256;

/// A check, which answers the number of a refusal.
pub struct Check {
    name: &'static str,
    what: &'static str,
    check: Box<dyn Fn() -> u32>,
}

impl Check {
    pub fn of_arena() -> Self {
        let (terms, _) = thousand_nodes();
        Check {
            name: "check of an arena",
            what: "`check_arena` of 1,000 nodes: a tree over 500 columns, and a literal",
            check: Box::new(move || library::check_arena(&terms.cells)),
        }
    }

    pub fn of_group() -> Self {
        let (terms, columns) = thousand_nodes();
        let group = terms.group(&fours(&columns[..MEMBERS])).ours;
        Check {
            name: "check of a group",
            what: "`check_group` of 64 classes and 256 members over the same arena, which is checked with it",
            check: Box::new(move || library::check_group(&terms.cells, &group)),
        }
    }
}

/// An arena of 1,000 nodes, and the numbers of its columns.
fn thousand_nodes() -> (Terms, Vec<u32>) {
    let mut terms = Terms::default();
    let columns = terms.columns(0, LEAVES);
    tree(&mut terms, &columns);
    terms.literal(0);
    (terms, columns)
}

impl Row for Check {
    fn name(&self) -> &'static str {
        self.name
    }

    fn what(&self) -> &'static str {
        self.what
    }

    fn pass(&self, side: Side) -> Option<Duration> {
        let Side::Exported = side else { return None };
        let mut clock = Clock::default();
        clock.time(&self.check);
        Some(clock.spent())
    }

    /// There is no other side: the check has to accept what it is lent.
    fn agrees(&self) -> bool {
        (self.check)() == DONE
    }
}
