//! Shapes of terms and classes that several rows are made of.

use crate::states::Terms;

/// The label of the operations.
const LABEL: u32 = 1;

/// Operations of a chain. Two chains over different leaves fit an arena.
const CHAIN: usize = 500;

/// Operations of the doublings: with the leaf 20 nodes, and 2^20 - 1 as a tree.
const DOUBLINGS: usize = 19;

/// Operations one over the other, the first over a leaf; the number of the last.
pub fn chain(terms: &mut Terms, leaf: u32) -> u32 {
    (0..CHAIN).fold(leaf, |child, _| terms.operation(LABEL, &[child]))
}

/// As a chain, but each operation has the one below it twice.
pub fn doublings(terms: &mut Terms, leaf: u32) -> u32 {
    (0..DOUBLINGS).fold(leaf, |child, _| terms.operation(LABEL, &[child, child]))
}

/// A tree over some leaves, two by two; the number of its root.
pub fn tree(terms: &mut Terms, leaves: &[u32]) -> u32 {
    let mut level = leaves.to_vec();
    while level.len() > 1 {
        level = level.chunks(2).map(|pair| above(terms, pair)).collect();
    }
    level[0]
}

/// The operation over two; one alone stays as it is.
fn above(terms: &mut Terms, pair: &[u32]) -> u32 {
    if pair.len() == 1 { pair[0] } else { terms.operation(LABEL, pair) }
}

/// Classes of four, of members that stand side by side.
pub fn fours(members: &[u32]) -> Vec<Vec<u32>> {
    members.chunks(4).map(<[u32]>::to_vec).collect()
}
