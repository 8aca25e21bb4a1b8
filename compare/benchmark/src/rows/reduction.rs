//! Orderings added to an empty list, and the list reduced.

use datafusion_physical_expr::PhysicalSortExpr;
use datafusion_physical_expr::equivalence::OrderingEquivalenceClass;

use crate::clock::Clock;
use crate::library::{self, OrderingsCells, done};
use crate::rows::Task;
use crate::states::{NO_ORDERINGS, Terms, orderings_cells};

const ORDERINGS: usize = 32;
const KEYS: usize = 16;

/// Each ordering starts so many keys behind the one before: its first keys are the last ones of that.
const STEP: usize = 8;

pub struct Reduction {
    terms: Terms,
    numbers: Vec<u16>,
    keys: Vec<Vec<PhysicalSortExpr>>,
}

impl Reduction {
    pub fn new() -> Self {
        let mut terms = Terms::default();
        let columns = terms.columns(0, (STEP * (ORDERINGS - 1) + KEYS) as u16);
        let orderings: Vec<&[u32]> = (0..ORDERINGS).map(|place| &columns[STEP * place..][..KEYS]).collect();
        let keys =
            orderings.iter().map(|exprs| exprs.iter().map(|expr| terms.sort_key(*expr, options(*expr))).collect());
        Reduction { keys: keys.collect(), numbers: orderings.iter().flat_map(|exprs| lent(exprs)).collect(), terms }
    }

    fn reduced(&self, clock: &mut Clock, add: impl Fn(&mut OrderingsCells, &[u16]) -> u32) -> OrderingsCells {
        let mut orderings = NO_ORDERINGS;
        clock.time(|| done(add(&mut orderings, &self.numbers)));
        orderings
    }
}

/// Every combination of options comes up.
fn options(expr: u32) -> u32 {
    expr % 4
}

/// An ordering as it is lent: key count, then expression and options of each key.
fn lent(exprs: &[u32]) -> Vec<u16> {
    let keys = exprs.iter().flat_map(|expr| [*expr as u16, options(*expr) as u16]);
    [exprs.len() as u16].into_iter().chain(keys).collect()
}

impl Task for Reduction {
    type Theirs = OrderingEquivalenceClass;
    type Ours = OrderingsCells;

    fn name(&self) -> &'static str {
        "reduction"
    }

    fn what(&self) -> &'static str {
        "`add_orderings` of 32 orderings of 16 keys to an empty list; all but one are cut to 8 keys; an arena of 264 nodes"
    }

    fn theirs(&self, clock: &mut Clock) -> OrderingEquivalenceClass {
        let (mut orderings, keys) = (OrderingEquivalenceClass::default(), self.keys.clone());
        clock.time(|| orderings.add_orderings(keys));
        orderings
    }

    fn ours(&self, clock: &mut Clock) -> OrderingsCells {
        self.reduced(clock, |orderings, numbers| library::add_orderings(&self.terms.cells, orderings, numbers))
    }

    #[cfg(inner)]
    fn inner(&self, clock: &mut Clock) -> Option<OrderingsCells> {
        Some(self.reduced(clock, crate::inner::add_orderings))
    }

    fn same(&self, theirs: &OrderingEquivalenceClass, ours: &OrderingsCells) -> bool {
        orderings_cells(&self.terms.arena, theirs) == *ours
    }
}
