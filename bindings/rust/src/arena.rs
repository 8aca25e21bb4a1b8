//! Expressions as numbered nodes.

use std::fmt;

use crate::layout::{
    ARENA_CELLS, ARENA_COUNT, ARENA_NODES, COLUMN, LITERAL, NODE_CELLS, NODE_CHILDREN, NODE_CHILD_COUNT, NODE_KIND,
    NODE_PAYLOAD, OPERATION,
};
use crate::refusal::{answered, done};
use crate::state::state;
use crate::{lent, raw, Refusal};

/// The number of an expression: its node's place in the arena, counted from 0.
///
/// The library's own numbers are below 1,024. They have 16 bits here, since sort keys are lent in 16 bits, so that every
/// number that can be said can be lent.
pub type Expr = u16;

/// A node of an arena.
#[derive(Clone, Debug, PartialEq, Eq, Hash)]
pub enum Node {
    /// A column.
    Column {
        /// The number of its name.
        name: u16,
        /// Its place in the schema.
        index: u16,
    },
    /// A literal, by the number of its value.
    Literal(u32),
    /// An operation over lower nodes.
    Operation {
        /// What it does.
        label: u32,
        /// What it does it to, 0 to 8 expressions.
        children: Vec<Expr>,
    },
}

impl Node {
    /// The node that its cells say, if they say one.
    fn of(cells: &[u32]) -> Option<Node> {
        let payload = cells[NODE_PAYLOAD];
        match cells[NODE_KIND] {
            COLUMN => Some(Node::Column { name: (payload >> 16) as u16, index: payload as u16 }),
            LITERAL => Some(Node::Literal(payload)),
            OPERATION => Some(Node::Operation { label: payload, children: children_of(cells)? }),
            _ => None,
        }
    }
}

/// The children that a node's cells say, if they say any.
fn children_of(cells: &[u32]) -> Option<Vec<Expr>> {
    let places = cells[NODE_CHILDREN..].get(..cells[NODE_CHILD_COUNT] as usize)?;
    places.iter().map(|child| Expr::try_from(*child).ok()).collect()
}

/// The expression that is numbered so. Every number that the library gives back is below 1,024.
pub(crate) fn expr_of(number: impl TryInto<Expr>) -> Expr {
    number.try_into().ok().expect("the library's expression numbers are below 1,024")
}

state! {
    /// Numbered expressions. A node stands once: adding it again answers its number.
    ///
    /// The default is an empty arena.
    ///
    /// ```
    /// use galthumir::{Arena, Node};
    ///
    /// let mut arena = Arena::default();
    /// let x = arena.add_column(3, 0)?;
    /// let five = arena.add_literal(5)?;
    /// let sum = arena.add_operation(1, &[x, five])?;
    /// assert_eq!(arena.read_node(sum)?, Node::Operation { label: 1, children: vec![x, five] });
    /// # Ok::<(), galthumir::Refusal>(())
    /// ```
    Arena: [u32; ARENA_CELLS]
}

impl Default for Arena {
    fn default() -> Self {
        Self::from_cells(&[0; ARENA_CELLS])
    }
}

impl Arena {
    /// Checks the arena as every call does that is lent it. Refusal: 11.
    ///
    /// ```
    /// use galthumir::{layout, Arena, Refusal};
    ///
    /// let mut cells = *Arena::default().cells();
    /// assert_eq!(Arena::from_cells(&cells).check(), Ok(()));
    /// cells[layout::ARENA_COUNT] = 1025;
    /// assert_eq!(Arena::from_cells(&cells).check(), Err(Refusal::State));
    /// ```
    pub fn check(&self) -> Result<(), Refusal> {
        done(raw::galthumir_check_arena(&self.cells))
    }

    /// Adds a column. Refusals: 11, 3.
    ///
    /// ```
    /// use galthumir::Arena;
    ///
    /// let mut arena = Arena::default();
    /// assert_eq!(arena.add_column(3, 0)?, 0);
    /// assert_eq!(arena.add_column(3, 1)?, 1);
    /// assert_eq!(arena.add_column(3, 0)?, 0);
    /// # Ok::<(), galthumir::Refusal>(())
    /// ```
    pub fn add_column(&mut self, name: u16, index: u16) -> Result<Expr, Refusal> {
        let [number] = answered(|answer| raw::galthumir_add_column(&mut self.cells, name, index, answer))?;
        Ok(expr_of(number))
    }

    /// Adds a literal. Refusals: 11, 3.
    ///
    /// ```
    /// use galthumir::Arena;
    ///
    /// let mut arena = Arena::default();
    /// assert_eq!(arena.add_literal(1)?, 0);
    /// assert_eq!(arena.add_literal(2)?, 1);
    /// # Ok::<(), galthumir::Refusal>(())
    /// ```
    pub fn add_literal(&mut self, value: u32) -> Result<Expr, Refusal> {
        let [number] = answered(|answer| raw::galthumir_add_literal(&mut self.cells, value, answer))?;
        Ok(expr_of(number))
    }

    /// Adds an operation over children that are there. Refusals: 11, 1, 2, 3.
    ///
    /// ```
    /// use galthumir::{Arena, Refusal};
    ///
    /// let mut arena = Arena::default();
    /// let a = arena.add_column(0, 0)?;
    /// assert_eq!(arena.add_operation(1, &[a, a])?, 1);
    /// assert_eq!(arena.add_operation(1, &[a, 2]), Err(Refusal::Expression));
    /// assert_eq!(arena.add_operation(1, &[a; 9]), Err(Refusal::Children));
    /// # Ok::<(), Refusal>(())
    /// ```
    pub fn add_operation(&mut self, label: u32, children: &[Expr]) -> Result<Expr, Refusal> {
        let children = lent::exprs(children);
        let [number] = answered(|answer| {
            // SAFETY: the pointer and the count are those of one slice.
            unsafe { raw::galthumir_add_operation(&mut self.cells, label, children.as_ptr(), children.len(), answer) }
        })?;
        Ok(expr_of(number))
    }

    /// Reads a node. Refusals: 11, 1.
    ///
    /// ```
    /// use galthumir::{Arena, Node, Refusal};
    ///
    /// let mut arena = Arena::default();
    /// let a = arena.add_column(3, 7)?;
    /// assert_eq!(arena.read_node(a)?, Node::Column { name: 3, index: 7 });
    /// assert_eq!(arena.read_node(1), Err(Refusal::Expression));
    /// # Ok::<(), Refusal>(())
    /// ```
    pub fn read_node(&self, expr: Expr) -> Result<Node, Refusal> {
        let [kind, first, second] = answered(|answer| raw::galthumir_read_node(&self.cells, expr.into(), answer))?;
        match kind {
            COLUMN => Ok(Node::Column { name: first as u16, index: second as u16 }),
            LITERAL => Ok(Node::Literal(first)),
            _ => Ok(Node::Operation { label: first, children: self.children(expr) }),
        }
    }

    /// The children of an operation of this arena, which has been checked.
    fn children(&self, expr: Expr) -> Vec<Expr> {
        let row = self.rows().nth(expr.into());
        row.and_then(children_of).expect("a checked arena says children")
    }

    /// Reads the child of a node at a place, counted from 0; none where the node has no such place. Refusals: 11, 1.
    ///
    /// ```
    /// use galthumir::Arena;
    ///
    /// let mut arena = Arena::default();
    /// let a = arena.add_column(0, 0)?;
    /// let f_of_a = arena.add_operation(1, &[a])?;
    /// assert_eq!(arena.read_child(f_of_a, 0)?, Some(a));
    /// assert_eq!(arena.read_child(f_of_a, 1)?, None);
    /// # Ok::<(), galthumir::Refusal>(())
    /// ```
    pub fn read_child(&self, expr: Expr, place: u32) -> Result<Option<Expr>, Refusal> {
        let [there, child] = answered(|answer| raw::galthumir_read_child(&self.cells, expr.into(), place, answer))?;
        Ok((there == 1).then(|| expr_of(child)))
    }

    /// Reads all nodes, each at the place of its number. Refusal: 11.
    ///
    /// ```
    /// use galthumir::{Arena, Node};
    ///
    /// let mut arena = Arena::default();
    /// arena.add_literal(5)?;
    /// arena.add_operation(1, &[0])?;
    /// assert_eq!(arena.nodes()?, [Node::Literal(5), Node::Operation { label: 1, children: vec![0] }]);
    /// # Ok::<(), galthumir::Refusal>(())
    /// ```
    pub fn nodes(&self) -> Result<Vec<Node>, Refusal> {
        self.check()?;
        Ok(self.rows().map(|row| Node::of(row).expect("a checked arena says nodes")).collect())
    }

    /// Moves the index of every column of an expression, names kept, and adds the missing nodes.
    /// Refusals: 11, 1, 10, 3.
    ///
    /// ```
    /// use galthumir::{Arena, Node, Refusal};
    ///
    /// let mut arena = Arena::default();
    /// let a = arena.add_column(3, 0)?;
    /// let moved = arena.add_offset_to_expr(a, 5)?;
    /// assert_eq!(arena.read_node(moved)?, Node::Column { name: 3, index: 5 });
    /// assert_eq!(arena.add_offset_to_expr(a, -1), Err(Refusal::Index));
    /// # Ok::<(), Refusal>(())
    /// ```
    pub fn add_offset_to_expr(&mut self, expr: Expr, offset: i64) -> Result<Expr, Refusal> {
        let [number] =
            answered(|answer| raw::galthumir_add_offset_to_expr(&mut self.cells, expr.into(), offset, answer))?;
        Ok(expr_of(number))
    }

    /// The cells of each node.
    fn rows(&self) -> impl Iterator<Item = &[u32]> {
        self.cells[ARENA_NODES..].chunks_exact(NODE_CELLS).take(self.cells[ARENA_COUNT] as usize)
    }
}

/// Shows each node, or its cells where they say none.
impl fmt::Debug for Arena {
    fn fmt(&self, f: &mut fmt::Formatter<'_>) -> fmt::Result {
        f.write_str("Arena ")?;
        f.debug_list().entries(self.rows().map(|row| lent::Shown::of(Node::of(row), row))).finish()
    }
}
