//! States that both sides have: terms, groups and keys, and the Rust's answers as the numbers that the library writes.

use std::sync::Arc;

use compare::arena::{Arena, Node};
use compare::constants::flavour_and_value;
use compare::keys::{Key, key_of, sort_key};
use datafusion_physical_expr::equivalence::class_parts::constant_of;
use datafusion_physical_expr::equivalence::{EquivalenceClass, EquivalenceGroup};
use datafusion_physical_expr::{LexOrdering, PhysicalExpr, PhysicalSortExpr};

use crate::library::{self, ArenaCells, GroupCells, MOST_MEMBERS, OrderingsCells, done};

/// The layout of an arena.
const ARENA_NODES: usize = 1;
const NODE_CELLS: usize = 11;
const NODE_CHILDREN: usize = 3;
const COLUMN: u32 = 1;
const LITERAL: u32 = 2;

/// The layout of a group.
const GROUP_LIMIT: usize = 0;
const GROUP_COUNT: usize = 1;
const GROUP_USED: usize = 2;
const GROUP_SIZES: usize = 3;
const GROUP_FLAVOURS: usize = 67;
const GROUP_VALUES: usize = 131;
const GROUP_MEMBERS: usize = 195;

/// The layout of a list of orderings.
const ORDERINGS_COUNT: usize = 0;
const ORDERINGS_LIST: usize = 1;
const ORDERING_CELLS: usize = 17;

const IN_BOUNDS: &str = "the benchmark's terms are within the bounds";

/// The cells of a group that is still to be made, and of an empty list of orderings.
pub const NO_GROUP: GroupCells = [0; 451];
pub const NO_ORDERINGS: OrderingsCells = [0; 545];

/// Terms with the same numbers on both sides: the Rust's expressions, and the library's arena.
pub struct Terms {
    pub arena: Arena,
    pub cells: Box<ArenaCells>,
}

impl Default for Terms {
    fn default() -> Self {
        Terms { arena: Arena::default(), cells: Box::new([0; 11265]) }
    }
}

impl Terms {
    pub fn column(&mut self, name: u16, index: u16) -> u32 {
        let mut number = [0];
        done(library::add_column(&mut self.cells, name, index, &mut number));
        self.also_theirs(Node::Column { name, index }, number)
    }

    pub fn literal(&mut self, value: u32) -> u32 {
        let mut number = [0];
        done(library::add_literal(&mut self.cells, value, &mut number));
        self.also_theirs(Node::Literal { value }, number)
    }

    pub fn operation(&mut self, label: u32, children: &[u32]) -> u32 {
        let mut number = [0];
        done(library::add_operation(&mut self.cells, label, children, &mut number));
        self.also_theirs(Node::Operation { label, children: as_places(children) }, number)
    }

    /// Columns of one name, with the indices from 0 on.
    pub fn columns(&mut self, name: u16, count: u16) -> Vec<u32> {
        (0..count).map(|index| self.column(name, index)).collect()
    }

    /// The Rust's expressions with these numbers.
    pub fn exprs(&self, numbers: &[u32]) -> Vec<Arc<dyn PhysicalExpr>> {
        self.arena.exprs(&as_places(numbers)).expect(IN_BOUNDS)
    }

    /// The Rust's expression with this number.
    pub fn expr(&self, number: u32) -> Arc<dyn PhysicalExpr> {
        self.arena.expr(number as usize).expect(IN_BOUNDS)
    }

    /// The Rust's form of a key.
    pub fn sort_key(&self, expr: u32, options: u32) -> PhysicalSortExpr {
        sort_key(&self.arena, Key { expression: expr as usize, options }).expect(IN_BOUNDS)
    }

    /// The Rust's classes with these members.
    pub fn classes(&self, members: &[Vec<u32>]) -> Vec<EquivalenceClass> {
        members.iter().map(|members| EquivalenceClass::new(self.exprs(members))).collect()
    }

    /// A group made of classes without constants.
    pub fn group(&self, members: &[Vec<u32>]) -> Group {
        let mut ours = NO_GROUP;
        done(library::new_group(&self.cells, &listed_classes(members), &mut ours));
        Group { theirs: EquivalenceGroup::new(self.classes(members)), ours }
    }

    fn also_theirs(&mut self, node: Node, number: [u32; 1]) -> u32 {
        let theirs = self.arena.add(node).expect(IN_BOUNDS);
        assert_eq!(theirs, number[0] as usize, "both sides number their nodes alike");
        number[0]
    }
}

/// The same group on both sides.
pub struct Group {
    pub theirs: EquivalenceGroup,
    pub ours: GroupCells,
}

fn as_places(numbers: &[u32]) -> Vec<usize> {
    numbers.iter().map(|number| *number as usize).collect()
}

/// Classes without constants as they are lent: flavour, value, member count and members of each.
pub fn listed_classes(members: &[Vec<u32>]) -> Vec<u32> {
    members.iter().flat_map(|members| [&[0, 0, members.len() as u32], &members[..]].concat()).collect()
}

/// The nodes of an arena of the library, with the Rust's expressions of them.
pub fn arena_of(cells: &ArenaCells) -> Arena {
    let mut arena = Arena::default();
    for node in cells[ARENA_NODES..].chunks(NODE_CELLS).take(cells[0] as usize) {
        arena.add(node_of(node)).expect(IN_BOUNDS);
    }
    arena
}

fn node_of(cells: &[u32]) -> Node {
    let [kind, payload, count] = [cells[0], cells[1], cells[2]];
    match kind {
        COLUMN => Node::Column { name: (payload >> 16) as u16, index: payload as u16 },
        LITERAL => Node::Literal { value: payload },
        _ => Node::Operation { label: payload, children: as_places(&cells[NODE_CHILDREN..][..count as usize]) },
    }
}

/// A group of the Rust as the library writes it.
pub fn group_cells(arena: &Arena, group: &EquivalenceGroup) -> GroupCells {
    let mut cells = NO_GROUP;
    let mut used = 0;
    for (place, class) in group.iter().enumerate() {
        let (flavour, value) = flavour_and_value(constant_of(class));
        cells[GROUP_SIZES + place] = class.len() as u32;
        cells[GROUP_FLAVOURS + place] = flavour;
        cells[GROUP_VALUES + place] = value;
        for member in class.iter() {
            cells[GROUP_MEMBERS + used] = arena.number_of(member) as u32;
            used += 1;
        }
    }
    cells[GROUP_LIMIT] = MOST_MEMBERS;
    cells[GROUP_COUNT] = group.len() as u32;
    cells[GROUP_USED] = used as u32;
    cells
}

/// A list of orderings of the Rust as the library writes it.
pub fn orderings_cells(arena: &Arena, orderings: &[LexOrdering]) -> OrderingsCells {
    let mut cells = NO_ORDERINGS;
    cells[ORDERINGS_COUNT] = orderings.len() as u16;
    for (ordering, cells) in orderings.iter().zip(cells[ORDERINGS_LIST..].chunks_mut(ORDERING_CELLS)) {
        cells[0] = ordering.len() as u16;
        for (key, cell) in ordering.iter().zip(&mut cells[1..]) {
            let key = key_of(arena, key);
            *cell = (key.expression * 4) as u16 + key.options as u16;
        }
    }
    cells
}

/// Orderings of the Rust as an enumeration writes them: key count, then expression and options of each key.
pub fn enumerated(arena: &Arena, orderings: &[LexOrdering]) -> Vec<u16> {
    let mut numbers = Vec::new();
    for ordering in orderings {
        numbers.push(ordering.len() as u16);
        for key in ordering.iter().map(|key| key_of(arena, key)) {
            numbers.extend([key.expression as u16, key.options as u16]);
        }
    }
    numbers
}
