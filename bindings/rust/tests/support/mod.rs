//! What the tests share.

// Each test is a program of its own and uses some of these.
#![allow(dead_code)]

use galthumir::layout::{
    ARENA_CELLS, ARENA_COUNT, ARENA_NODES, LITERAL, MAX_NODES, NODE_CELLS, NODE_KIND, NODE_PAYLOAD,
};
use galthumir::{Arena, Class, Constant, Expr, Key, Map};

/// An arena of N columns, and their numbers.
pub fn columns<const N: usize>() -> (Arena, [Expr; N]) {
    let mut arena = Arena::default();
    let exprs = std::array::from_fn(|i| arena.add_column(i as u16, i as u16).unwrap());
    (arena, exprs)
}

/// An arena of N columns, and an ascending key for each.
pub fn keys<const N: usize>() -> (Arena, [Key; N]) {
    let (arena, exprs) = columns();
    (arena, exprs.map(Key::asc))
}

/// An arena of so many literals, each with its number as value.
pub fn literals(count: usize) -> Arena {
    assert!(count <= MAX_NODES);
    let mut cells = [0; ARENA_CELLS];
    cells[ARENA_COUNT] = count as u32;
    for (i, node) in cells[ARENA_NODES..].chunks_exact_mut(NODE_CELLS).take(count).enumerate() {
        node[NODE_KIND] = LITERAL;
        node[NODE_PAYLOAD] = i as u32;
    }
    Arena::from_cells(&cells)
}

/// An arena with room for so many nodes, whose first nodes are columns, and the numbers of these.
pub fn nearly_full<const N: usize>(room: usize) -> (Arena, [Expr; N]) {
    let (first, exprs) = columns::<N>();
    let mut cells = *literals(MAX_NODES - room).cells();
    let held = ARENA_NODES..ARENA_NODES + N * NODE_CELLS;
    cells[held.clone()].copy_from_slice(&first.cells()[held]);
    (Arena::from_cells(&cells), exprs)
}

/// A class with a constant.
pub fn constant(constant: Constant, members: &[Expr]) -> Class {
    Class { constant, members: members.to_vec() }
}

/// A map in which each of the first keys depends on the key beside it in the second list. Every key becomes itself.
pub fn depending(arena: &Arena, keys: &[Key], others: &[Key]) -> Map {
    let mut map = Map::default();
    for (key, other) in keys.iter().zip(others) {
        map.insert(arena, *key, Some(*key), Some(*other)).unwrap();
        map.insert(arena, *other, Some(*other), None).unwrap();
    }
    map
}

/// The bytes that hex digits say; blanks are passed over.
pub fn bytes(hex: &str) -> Vec<u8> {
    let digits: Vec<u8> = hex.chars().filter_map(|c| c.to_digit(16)).map(|digit| digit as u8).collect();
    digits.chunks_exact(2).map(|pair| 16 * pair[0] + pair[1]).collect()
}
