//! The calls of the library that the benchmark makes, as include/galthumir.h declares them.

/// The states that cross as arrays of numbers.
pub type ArenaCells = [u32; 11265];
pub type GroupCells = [u32; 451];
pub type OrderingsCells = [u16; 545];
pub type MapCells = [u16; 1217];

/// The member limit of a group that is opened as large as it can be, and of every group that is made.
pub const MOST_MEMBERS: u32 = 256;

/// Places of an output that is never too short for an enumeration, and bytes of one for a session.
pub const ENUMERATION_OUTPUT: usize = 33_792;
pub const SESSION_OUTPUT: usize = 131_096;

/// Stands for a target or a dependency that an insert is not given.
pub const NONE: u32 = u32::MAX;

/// The declarations. A list is where it begins and the number of its elements.
mod c {
    use super::{ArenaCells, GroupCells, MapCells, OrderingsCells};

    unsafe extern "C" {
        pub safe fn galthumir_check_arena(arena: &ArenaCells) -> u32;
        pub safe fn galthumir_add_column(arena: &mut ArenaCells, name: u16, index: u16, answer: &mut [u32; 1])
        -> u32;
        pub safe fn galthumir_add_literal(arena: &mut ArenaCells, value: u32, answer: &mut [u32; 1]) -> u32;
        pub fn galthumir_add_operation(
            arena: &mut ArenaCells,
            label: u32,
            children: *const u32,
            children_count: usize,
            answer: &mut [u32; 1],
        ) -> u32;
        pub safe fn galthumir_open_group(limit: u32, made: &mut GroupCells) -> u32;
        pub safe fn galthumir_check_group(arena: &ArenaCells, group: &GroupCells) -> u32;
        pub safe fn galthumir_add_equal_conditions(
            arena: &ArenaCells,
            group: &mut GroupCells,
            left: u32,
            right: u32,
            answer: &mut [u32; 1],
        ) -> u32;
        pub safe fn galthumir_exprs_equal(
            arena: &ArenaCells,
            group: &GroupCells,
            left: u32,
            right: u32,
            answer: &mut [u32; 1],
        ) -> u32;
        pub safe fn galthumir_normalize_expr(
            arena: &mut ArenaCells,
            group: &GroupCells,
            expr: u32,
            answer: &mut [u32; 1],
        ) -> u32;
        pub fn galthumir_new_group(
            arena: &ArenaCells,
            classes: *const u32,
            classes_count: usize,
            made: &mut GroupCells,
        ) -> u32;
        pub fn galthumir_join(
            arena: &mut ArenaCells,
            left: &GroupCells,
            right: &GroupCells,
            kind: u32,
            left_size: usize,
            pairs: *const u32,
            pairs_count: usize,
            made: &mut GroupCells,
        ) -> u32;
        pub fn galthumir_project(
            arena: &mut ArenaCells,
            group: &GroupCells,
            mapping: *const u32,
            mapping_count: usize,
            made: &mut GroupCells,
        ) -> u32;
        pub fn galthumir_add_orderings(
            arena: &ArenaCells,
            orderings: &mut OrderingsCells,
            numbers: *const u16,
            numbers_count: usize,
        ) -> u32;
        pub safe fn galthumir_insert(
            arena: &ArenaCells,
            map: &mut MapCells,
            expr: u32,
            options: u32,
            target_expr: u32,
            target_options: u32,
            dependency_expr: u32,
            dependency_options: u32,
        ) -> u32;
        pub fn galthumir_generate_dependency_orderings(
            arena: &ArenaCells,
            map: &MapCells,
            keys: *const u32,
            keys_count: usize,
            output: *mut u16,
            output_count: usize,
            answer: &mut [usize; 2],
        ) -> u32;
        pub fn galthumir_session(
            input: *const u8,
            input_count: usize,
            output: *mut u8,
            output_count: usize,
            answer: &mut [usize; 1],
        ) -> u32;
    }
}

pub use c::{
    galthumir_add_column as add_column, galthumir_add_equal_conditions as add_equal_conditions,
    galthumir_add_literal as add_literal, galthumir_check_arena as check_arena, galthumir_check_group as check_group,
    galthumir_exprs_equal as exprs_equal, galthumir_insert as insert, galthumir_normalize_expr as normalize_expr,
    galthumir_open_group as open_group,
};

/// What a call returns that is done.
pub const DONE: u32 = 0;

/// Goes on where a call is done, and stops where it was refused: every call of the benchmark is to be done.
pub fn done(returned: u32) {
    assert_eq!(returned, DONE, "a call of the library was refused");
}

// Each of these lends its lists whole, so the library reads and writes nothing outside of them.

pub fn add_operation(arena: &mut ArenaCells, label: u32, children: &[u32], answer: &mut [u32; 1]) -> u32 {
    unsafe { c::galthumir_add_operation(arena, label, children.as_ptr(), children.len(), answer) }
}

pub fn new_group(arena: &ArenaCells, classes: &[u32], made: &mut GroupCells) -> u32 {
    unsafe { c::galthumir_new_group(arena, classes.as_ptr(), classes.len(), made) }
}

/// How two groups are joined: the kind's number, the number of left columns, left and right of each pair.
pub struct JoinRule {
    pub kind: u32,
    pub left_size: usize,
    pub pairs: Vec<u32>,
}

pub fn join(
    arena: &mut ArenaCells,
    left: &GroupCells,
    right: &GroupCells,
    rule: &JoinRule,
    made: &mut GroupCells,
) -> u32 {
    let JoinRule { kind, left_size, pairs } = rule;
    unsafe { c::galthumir_join(arena, left, right, *kind, *left_size, pairs.as_ptr(), pairs.len(), made) }
}

pub fn project(arena: &mut ArenaCells, group: &GroupCells, mapping: &[u32], made: &mut GroupCells) -> u32 {
    unsafe { c::galthumir_project(arena, group, mapping.as_ptr(), mapping.len(), made) }
}

pub fn add_orderings(arena: &ArenaCells, orderings: &mut OrderingsCells, numbers: &[u16]) -> u32 {
    unsafe { c::galthumir_add_orderings(arena, orderings, numbers.as_ptr(), numbers.len()) }
}

pub fn generate_dependency_orderings(
    arena: &ArenaCells,
    map: &MapCells,
    keys: &[u32],
    output: &mut [u16],
    answer: &mut [usize; 2],
) -> u32 {
    let (keys, keys_count) = (keys.as_ptr(), keys.len());
    let (output, output_count) = (output.as_mut_ptr(), output.len());
    unsafe { c::galthumir_generate_dependency_orderings(arena, map, keys, keys_count, output, output_count, answer) }
}

pub fn session(input: &[u8], output: &mut [u8], answer: &mut [usize; 1]) -> u32 {
    unsafe { c::galthumir_session(input.as_ptr(), input.len(), output.as_mut_ptr(), output.len(), answer) }
}
