//! An enumeration of 720 orderings: six prefix lists of one ordering, in all orders.

use datafusion_physical_expr::LexOrdering;
use datafusion_physical_expr::equivalence::properties::{Dependencies, DependencyMap, generate_dependency_orderings};

use crate::clock::Clock;
use crate::library::{self, ENUMERATION_OUTPUT, MapCells, NONE, done};
use crate::rows::Task;
use crate::states::{Terms, enumerated};

const LISTS: u16 = 6;

pub struct Permutations {
    terms: Terms,
    map: DependencyMap,
    cells: MapCells,
    given: Dependencies,
    keys: Vec<u32>,
}

impl Permutations {
    pub fn new() -> Self {
        let mut terms = Terms::default();
        let (asked, below, targets) = (terms.columns(0, LISTS), terms.columns(1, LISTS), terms.columns(2, LISTS));
        let (mut map, mut cells) = (DependencyMap::default(), [0; 1217]);
        for ((asked, below), target) in asked.iter().zip(&below).zip(&targets) {
            let key = |expr: u32| terms.sort_key(expr, 0);
            map.insert(key(*asked), None, Some(key(*below)));
            map.insert(key(*below), Some(key(*target)), None);
            done(library::insert(&terms.cells, &mut cells, *asked, 0, NONE, 0, *below, 0));
            done(library::insert(&terms.cells, &mut cells, *below, 0, *target, 0, NONE, 0));
        }
        Permutations {
            map,
            cells,
            given: Dependencies::new(asked.iter().map(|expr| terms.sort_key(*expr, 0))),
            keys: asked.iter().flat_map(|expr| [*expr, 0]).collect(),
            terms,
        }
    }

    /// The part of the output that was written.
    fn enumerated(
        &self,
        clock: &mut Clock,
        enumerate: impl Fn(&MapCells, &[u32], &mut [u16], &mut [usize; 2]) -> u32,
    ) -> Vec<u16> {
        let (mut output, mut answer) = (vec![0; ENUMERATION_OUTPUT], [0; 2]);
        clock.time(|| done(enumerate(&self.cells, &self.keys, &mut output, &mut answer)));
        output.truncate(answer[1]);
        output
    }
}

impl Task for Permutations {
    type Theirs = Vec<LexOrdering>;
    type Ours = Vec<u16>;

    fn name(&self) -> &'static str {
        "720 permutations"
    }

    fn what(&self) -> &'static str {
        "`generate_dependency_orderings` of six keys with one prefix ordering each; an arena of 18 nodes"
    }

    fn theirs(&self, clock: &mut Clock) -> Vec<LexOrdering> {
        clock.time(|| generate_dependency_orderings(&self.given, &self.map))
    }

    fn ours(&self, clock: &mut Clock) -> Vec<u16> {
        self.enumerated(clock, |map, keys, output, answer| {
            library::generate_dependency_orderings(&self.terms.cells, map, keys, output, answer)
        })
    }

    #[cfg(inner)]
    fn inner(&self, clock: &mut Clock) -> Option<Vec<u16>> {
        Some(self.enumerated(clock, crate::inner::generate_dependency_orderings))
    }

    fn same(&self, theirs: &Vec<LexOrdering>, ours: &Vec<u16>) -> bool {
        enumerated(&self.terms.arena, theirs) == *ours
    }
}
