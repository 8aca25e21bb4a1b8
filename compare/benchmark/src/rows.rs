//! The rows of the benchmark: the same work for each side.

mod checks;
mod equal_conditions;
mod equality;
mod joining;
mod merges;
mod normal_forms;
mod permutations;
mod projecting;
mod reduction;
mod sessions;
mod shapes;

use std::time::Duration;

use compare::work;

use crate::clock::Clock;

/// Who does the work: the Rust text, the library's exported functions, or its inner functions without checks.
#[derive(Clone, Copy)]
pub enum Side {
    Rust,
    Exported,
    Inner,
}

/// Work that each side does in its own form. Only what a side hands to the clock is measured. Inner functions that aren't
/// there answer nothing.
pub trait Task {
    type Theirs;
    type Ours;

    fn name(&self) -> &'static str;
    fn what(&self) -> &'static str;

    fn theirs(&self, clock: &mut Clock) -> Self::Theirs;
    fn ours(&self, clock: &mut Clock) -> Self::Ours;

    fn inner(&self, _: &mut Clock) -> Option<Self::Ours> {
        None
    }

    /// Whether the library's answer is the Rust's.
    fn same(&self, theirs: &Self::Theirs, ours: &Self::Ours) -> bool;
}

/// A row of the table.
pub trait Row {
    fn name(&self) -> &'static str;
    fn what(&self) -> &'static str;

    /// What one pass takes, if the row has this side.
    fn pass(&self, side: Side) -> Option<Duration>;

    /// Whether all sides give the same answer.
    fn agrees(&self) -> bool;
}

impl<T: Task> Row for T {
    fn name(&self) -> &'static str {
        Task::name(self)
    }

    fn what(&self) -> &'static str {
        Task::what(self)
    }

    fn pass(&self, side: Side) -> Option<Duration> {
        work::start();
        let mut clock = Clock::default();
        match side {
            Side::Rust => drop(self.theirs(&mut clock)),
            Side::Exported => drop(self.ours(&mut clock)),
            Side::Inner => drop(self.inner(&mut clock)?),
        }
        Some(clock.spent())
    }

    fn agrees(&self) -> bool {
        work::start();
        let clock = &mut Clock::default();
        let theirs = self.theirs(clock);
        let ours = [Some(self.ours(clock)), self.inner(clock)];
        work::start();
        ours.iter().flatten().all(|ours| self.same(&theirs, ours))
    }
}

/// All rows, in the order of the table.
pub fn all() -> Vec<Box<dyn Row>> {
    vec![
        Box::new(equal_conditions::EqualConditions::new()),
        Box::new(merges::Merges::new()),
        Box::new(joining::Join::new()),
        Box::new(projecting::Project::new()),
        Box::new(normal_forms::NormalForm::of_tree()),
        Box::new(normal_forms::NormalForm::of_chain()),
        Box::new(normal_forms::NormalForm::of_doublings()),
        Box::new(equality::Equality::of_chains()),
        Box::new(equality::Equality::of_doublings()),
        Box::new(reduction::Reduction::new()),
        Box::new(permutations::Permutations::new()),
        Box::new(sessions::Session::new()),
        Box::new(checks::Check::of_arena()),
        Box::new(checks::Check::of_group()),
    ]
}
