//! `join`: the Rust joins two groups; what document 01 adds are the numbers of the nodes that come of it, and
//! the refusals.

use std::sync::Arc;

use datafusion_common::JoinType;
use datafusion_physical_expr::PhysicalExpr;
use datafusion_physical_expr::equivalence::{EquivalenceClass, EquivalenceGroup};
use datafusion_physical_expr::physical_expr::add_offset_to_expr;

use crate::arena::Arena;
use crate::group::{Group, MOST_MEMBERS, refuse_too_large};
use crate::lists::{Made, is_outside_domain};
use crate::refusal::Refusal;
use crate::shifting::refuse_columns_outside;

/// A pair of expressions that a join holds equal.
type OnPair = (Arc<dyn PhysicalExpr>, Arc<dyn PhysicalExpr>);

/// The join types by their numbers.
const JOIN_TYPES: [JoinType; 10] = [
    JoinType::Inner,
    JoinType::Left,
    JoinType::Full,
    JoinType::Right,
    JoinType::LeftSemi,
    JoinType::LeftAnti,
    JoinType::LeftMark,
    JoinType::RightSemi,
    JoinType::RightAnti,
    JoinType::RightMark,
];

/// Why a shift never fails in the Rust's form.
const TESTED: &str = "the bounds of a shift were tested";

/// How two groups are to be joined; the pairs are numbers of expressions.
#[derive(Debug)]
pub struct JoinRule {
    pub kind: u32,
    pub left_size: u64,
    pub pairs: Vec<(usize, usize)>,
}

/// A join whose numbers were found right: what the Rust is asked.
struct Join<'a> {
    left: &'a EquivalenceGroup,
    right: &'a EquivalenceGroup,
    join_type: JoinType,
    left_size: usize,
    on: Vec<OnPair>,
}

/// The group that the Rust makes of the two, with its new nodes in the arena, or the first refusal that applies.
pub fn joined_group(arena: &mut Arena, left: &Group, right: &Group, rule: &JoinRule) -> Result<Made, Refusal> {
    let join = Join {
        left,
        right,
        join_type: *JOIN_TYPES.get(rule.kind as usize).ok_or(Refusal::OutsideSet)?,
        left_size: rule.left_size.try_into().expect("the Rust's sizes have 64 bits"),
        on: exprs_of_pairs(arena, &rule.pairs)?,
    };
    refuse_columns_outside(join.to_shift(), rule.left_size.into())?;
    let list = join.list_reaching_new();
    arena.or_as_before(|arena| {
        arena.add_answers(&join.shifted())?;
        refuse_too_large(&list, MOST_MEMBERS)?;
        Ok(Made { group: join.group_after_each_pair()?, outside_domain: is_outside_domain(&list) })
    })
}

fn exprs_of_pairs(arena: &Arena, pairs: &[(usize, usize)]) -> Result<Vec<OnPair>, Refusal> {
    pairs.iter().map(|(left, right)| Ok((arena.expr(*left)?, arena.expr(*right)?))).collect()
}

impl Join<'_> {
    /// Whether the right side's columns are moved behind the left side's.
    fn shifts(&self) -> bool {
        use JoinType::{Full, Inner, Left, Right};
        matches!(self.join_type, Inner | Left | Full | Right)
    }

    /// The right side's classes that are shifted, in their order.
    fn classes_to_shift(&self) -> &[EquivalenceClass] {
        if self.shifts() { self.right } else { &[] }
    }

    /// The pairs whose right sides are shifted: those of Inner.
    fn pairs_to_shift(&self) -> &[OnPair] {
        if self.join_type == JoinType::Inner { &self.on } else { &[] }
    }

    /// All expressions to shift: the right side's classes, then the pairs' right sides.
    fn to_shift(&self) -> impl Iterator<Item = &Arc<dyn PhysicalExpr>> {
        let members = self.classes_to_shift().iter().flat_map(|class| class.iter());
        members.chain(self.pairs_to_shift().iter().map(|(_, right)| right))
    }

    /// The shift as the Rust casts it. Where it isn't the same number, no column is shifted.
    fn offset(&self) -> isize {
        self.left_size as isize
    }

    /// The right side's classes after the shift.
    fn shifted_classes(&self) -> Vec<EquivalenceClass> {
        self.classes_to_shift().iter().map(|class| class.try_with_offset(self.offset()).expect(TESTED)).collect()
    }

    /// The list of classes that the Rust hands to `new`, or an empty one where it doesn't call it.
    fn list_reaching_new(&self) -> Vec<EquivalenceClass> {
        let left: &[EquivalenceClass] = if self.shifts() { self.left } else { &[] };
        left.iter().cloned().chain(self.shifted_classes()).collect()
    }

    /// What comes of the expressions to shift, in the order in which the Rust shifts them.
    fn shifted(&self) -> Vec<Arc<dyn PhysicalExpr>> {
        let pairs = self.pairs_to_shift().iter();
        let sides = pairs.map(|(_, right)| add_offset_to_expr(Arc::clone(right), self.offset()).expect(TESTED));
        self.shifted_classes().into_iter().flatten().chain(sides).collect()
    }

    /// The joined group. The Rust is asked for it with more and more of the pairs, since the group is refused if
    /// it is too large after any of them.
    fn group_after_each_pair(&self) -> Result<Group, Refusal> {
        for count in 0..self.on.len() {
            Group::of(self.joined(count))?;
        }
        Group::of(self.joined(self.on.len()))
    }

    /// What the Rust makes of the two groups and the first `count` pairs.
    fn joined(&self, count: usize) -> EquivalenceGroup {
        self.left.join(self.right, &self.join_type, self.left_size, &self.on[..count]).expect(TESTED)
    }
}
