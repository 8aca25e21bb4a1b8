//! Numbered nodes with structural identity, each with its expression in the Rust's form.

use std::collections::HashMap;
use std::sync::Arc;

use datafusion_common::ScalarValue;
use datafusion_physical_expr::PhysicalExpr;
use datafusion_physical_expr::expressions::{Column, Literal};

use crate::operation::Operation;
use crate::refusal::Refusal;

const MOST_NODES: usize = 1024;
const MOST_CHILDREN: usize = 8;

/// A node; the children of an operation are numbers of nodes.
#[derive(Clone, Debug, PartialEq, Eq, Hash)]
pub enum Node {
    Column { name: u16, index: u16 },
    Literal { value: u32 },
    Operation { label: u32, children: Vec<usize> },
}

#[derive(Default)]
pub struct Arena {
    nodes: Vec<Node>,
    exprs: Vec<Arc<dyn PhysicalExpr>>,
    numbers: HashMap<Node, usize>,
}

impl Arena {
    /// The expression with this number.
    pub fn expr(&self, number: usize) -> Result<Arc<dyn PhysicalExpr>, Refusal> {
        self.exprs.get(number).cloned().ok_or(Refusal::UnknownExpression)
    }

    /// The expressions with these numbers.
    pub fn exprs(&self, numbers: &[usize]) -> Result<Vec<Arc<dyn PhysicalExpr>>, Refusal> {
        numbers.iter().map(|number| self.expr(*number)).collect()
    }

    /// All nodes, in the order of their numbers.
    pub fn nodes(&self) -> &[Node] {
        &self.nodes
    }

    pub fn count(&self) -> usize {
        self.nodes.len()
    }

    /// Whether this is the number of a literal. An unknown number is none.
    pub fn is_literal(&self, number: usize) -> bool {
        matches!(self.nodes.get(number), Some(Node::Literal { .. }))
    }

    /// The number of an expression that is in the arena.
    pub fn number_of(&self, tree: &Arc<dyn PhysicalExpr>) -> usize {
        let children = tree.children().into_iter().map(|child| self.number_of(child)).collect();
        self.numbers[&root_node(tree, children)]
    }

    /// Adds a node that was asked for: its children have to be there and not too many.
    pub fn add(&mut self, node: Node) -> Result<usize, Refusal> {
        if let Node::Operation { children, .. } = &node {
            if children.iter().any(|child| *child >= self.count()) {
                return Err(Refusal::UnknownExpression);
            }
            if children.len() > MOST_CHILDREN {
                return Err(Refusal::TooManyChildren);
            }
        }
        self.place(node)
    }

    /// Adds the missing nodes of an answer, or none of them where they don't all fit.
    pub fn add_answer(&mut self, answer: &Arc<dyn PhysicalExpr>) -> Result<usize, Refusal> {
        self.or_as_before(|arena| arena.place_tree(answer))
    }

    /// The same for the answers of one call, in their order.
    pub fn add_answers<'a>(
        &mut self,
        answers: impl IntoIterator<Item = &'a Arc<dyn PhysicalExpr>>,
    ) -> Result<(), Refusal> {
        self.or_as_before(|arena| answers.into_iter().try_for_each(|answer| arena.place_tree(answer).map(|_| ())))
    }

    /// Does a call, and forgets the nodes that it added where it is refused.
    pub fn or_as_before<T>(&mut self, call: impl FnOnce(&mut Self) -> Result<T, Refusal>) -> Result<T, Refusal> {
        let before = self.count();
        let answer = call(self);
        if answer.is_err() {
            self.cut_to(before);
        }
        answer
    }

    /// Places a tree: children before parents, left to right.
    fn place_tree(&mut self, tree: &Arc<dyn PhysicalExpr>) -> Result<usize, Refusal> {
        let children = tree.children();
        let children = children.into_iter().map(|child| self.place_tree(child)).collect::<Result<_, _>>()?;
        self.place(root_node(tree, children))
    }

    /// The number of an equal old node, or else the next number.
    fn place(&mut self, node: Node) -> Result<usize, Refusal> {
        if let Some(number) = self.numbers.get(&node) {
            return Ok(*number);
        }
        let number = self.nodes.len();
        if number == MOST_NODES {
            return Err(Refusal::ArenaFull);
        }
        self.exprs.push(self.expr_of(&node));
        self.numbers.insert(node.clone(), number);
        self.nodes.push(node);
        Ok(number)
    }

    /// Forgets the nodes from number `count` on.
    fn cut_to(&mut self, count: usize) {
        self.exprs.truncate(count);
        for node in self.nodes.drain(count..) {
            self.numbers.remove(&node);
        }
    }

    /// The node in the Rust's form, over the expressions of its children.
    fn expr_of(&self, node: &Node) -> Arc<dyn PhysicalExpr> {
        match node {
            Node::Column { name, index } => Arc::new(Column::new(*name, usize::from(*index))),
            Node::Literal { value } => Arc::new(Literal::new(ScalarValue(*value))),
            Node::Operation { label, children } => {
                let children = children.iter().map(|child| Arc::clone(&self.exprs[*child])).collect();
                Arc::new(Operation::new(*label, children))
            }
        }
    }
}

/// The root of a tree as a node over the numbers of its children.
fn root_node(tree: &Arc<dyn PhysicalExpr>, children: Vec<usize>) -> Node {
    if let Some(column) = tree.downcast_ref::<Column>() {
        let index = column.index().try_into().expect("the bounds of a shifted column were tested");
        Node::Column { name: column.name(), index }
    } else if let Some(literal) = tree.downcast_ref::<Literal>() {
        Node::Literal { value: literal.value().0 }
    } else {
        let operation = tree.downcast_ref::<Operation>().expect("a tree has three types of nodes");
        Node::Operation { label: operation.label(), children }
    }
}
