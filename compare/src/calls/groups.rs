//! The commands on groups: changes, questions, normal forms, lists of classes and joins.

use datafusion_physical_expr::equivalence::class_parts::constant_of;

use super::Calls;
use crate::constants::{constant, flavour_and_value};
use crate::group::Group;
use crate::joining::{JoinRule, joined_group};
use crate::keys::{Key, key_of, sort_key};
use crate::lists::{ListedClass, Made, new_group};
use crate::refusal::Refusal;
use crate::showing::{NONE, print_classes, print_orderings};
use crate::sorting::normal_keys;
use crate::state::State;

impl Calls {
    pub(super) fn open(&mut self, name: &str, limit: u32) -> Result<(), Refusal> {
        let group = Group::open(limit)?;
        self.keep_group(name, group);
        Ok(())
    }

    pub(super) fn new_group(&mut self, name: &str, list: &[ListedClass]) -> Result<(), Refusal> {
        let made = new_group(&self.state.arena, list)?;
        self.keep_made(name, made);
        Ok(())
    }

    pub(super) fn add_equal(&mut self, name: &str, left: usize, right: usize) -> Result<(), Refusal> {
        let (left, right) = (self.state.arena.expr(left)?, self.state.arena.expr(right)?);
        let new_class = self.state.groups.change(name, |group| group.add_equal(left, right))?;
        self.print_change(name, new_class);
        Ok(())
    }

    pub(super) fn add_constant(
        &mut self,
        name: &str,
        expression: usize,
        flavour: u32,
        value: u32,
    ) -> Result<(), Refusal> {
        let constant = constant(flavour, value)?;
        let expr = self.state.arena.expr(expression)?;
        self.state.groups.change(name, |group| group.add_constant(expr, constant))?;
        self.print_group(name);
        Ok(())
    }

    pub(super) fn clear(&mut self, name: &str) -> Result<(), Refusal> {
        let change = self.state.groups.change(name, |group| Ok(group.clear()))?;
        self.print_change(name, change);
        Ok(())
    }

    pub(super) fn print_constant(&mut self, name: &str, expression: usize) -> Result<(), Refusal> {
        let constant = self.state.groups.get(name).is_expr_constant(&self.state.arena.expr(expression)?);
        let (flavour, value) = flavour_and_value(constant.as_ref());
        self.lines.print(format_args!("k {flavour} {value}"));
        Ok(())
    }

    pub(super) fn print_equality(&mut self, name: &str, left: usize, right: usize) -> Result<(), Refusal> {
        let (left, right) = (self.state.arena.expr(left)?, self.state.arena.expr(right)?);
        let equal = self.state.groups.get(name).exprs_equal(&left, &right);
        self.lines.print(format_args!("q {}", u8::from(equal)));
        Ok(())
    }

    /// The class's place, its size, its first member and its constant.
    pub(super) fn print_class(&mut self, name: &str, expression: usize) -> Result<(), Refusal> {
        let State { arena, groups, .. } = &self.state;
        let expr = arena.expr(expression)?;
        let group = groups.get(name);
        match group.get_equivalence_class(&expr) {
            Some(class) => {
                let place = group.iter().position(|other| std::ptr::eq(other, class)).expect("a class of the group");
                let first = arena.number_of(class.canonical_expr().expect("a class of a group has members"));
                let (flavour, value) = flavour_and_value(constant_of(class));
                self.lines.print(format_args!("m {place} {} {first} {flavour} {value}", class.len()));
            }
            None => self.lines.print(format_args!("m {NONE}")),
        }
        Ok(())
    }

    pub(super) fn print_normal_form(&mut self, name: &str, expression: usize) -> Result<(), Refusal> {
        let normal = self.state.groups.get(name).normalize_expr(self.state.arena.expr(expression)?);
        let number = self.state.arena.add_answer(&normal)?;
        self.lines.print(format_args!("n {number} nodes {}", self.state.arena.count()));
        Ok(())
    }

    pub(super) fn print_normal_key(&mut self, name: &str, key: Key) -> Result<(), Refusal> {
        let State { arena, groups, .. } = &mut self.state;
        let normal = groups.get(name).normalize_sort_expr(sort_key(arena, key)?);
        arena.add_answer(&normal.expr)?;
        self.lines.print(format_args!("s {} nodes {}", key_of(arena, &normal), arena.count()));
        Ok(())
    }

    pub(super) fn print_normal_keys(&mut self, name: &str, keys: &[Key]) -> Result<(), Refusal> {
        let State { arena, groups, .. } = &mut self.state;
        let normal = normal_keys(arena, groups.get(name), keys)?;
        print_orderings(arena, &[normal], &mut self.lines);
        Ok(())
    }

    pub(super) fn join(&mut self, made: &str, left: &str, right: &str, rule: &JoinRule) -> Result<(), Refusal> {
        let State { arena, groups, .. } = &mut self.state;
        let joined = joined_group(arena, groups.get(left), groups.get(right), rule)?;
        self.keep_made(made, joined);
        Ok(())
    }

    /// Keeps a group made of a list, and says so where the list is outside the domain.
    fn keep_made(&mut self, name: &str, made: Made) {
        if made.outside_domain {
            self.lines.print(format_args!("# outside the domain"));
        }
        self.keep_group(name, made.group);
    }

    /// Keeps a new group under this name and prints it.
    pub(super) fn keep_group(&mut self, name: &str, group: Group) {
        self.state.groups.keep(name, group);
        self.print_group(name);
    }

    /// Prints what a call on the group answered, and the group.
    fn print_change(&mut self, name: &str, answer: bool) {
        self.lines.print(format_args!("b {}", u8::from(answer)));
        self.print_group(name);
    }

    pub(super) fn print_group(&mut self, name: &str) {
        print_classes(&self.state.arena, self.state.groups.get(name), &mut self.lines);
    }
}
