//! The library's inner functions, without the check of what is lent, as the crate `unchecked_c` exports them. What the check
//! would find is asked of the caller: the benchmark lends only what the exported functions accept.

use crate::library::{ArenaCells, GroupCells, MapCells, OrderingsCells};

mod c {
    use super::{ArenaCells, GroupCells, MapCells, OrderingsCells};

    unsafe extern "C" {
        pub fn unchecked_add_equal_conditions(
            arena: &ArenaCells,
            group: &mut GroupCells,
            left: u32,
            right: u32,
        ) -> u32;
        pub fn unchecked_exprs_equal(arena: &ArenaCells, group: &GroupCells, left: u32, right: u32) -> u32;
        pub fn unchecked_normalize_expr(
            arena: &mut ArenaCells,
            group: &GroupCells,
            expr: u32,
            answer: &mut [u32; 1],
        ) -> u32;
        pub fn unchecked_new_group(classes: *const u32, classes_count: usize, made: &mut GroupCells) -> u32;
        pub fn unchecked_add_orderings(
            orderings: &mut OrderingsCells,
            numbers: *const u16,
            numbers_count: usize,
        ) -> u32;
        pub fn unchecked_generate_dependency_orderings(
            map: &MapCells,
            keys: *const u32,
            keys_count: usize,
            output: *mut u16,
            output_count: usize,
            answer: &mut [usize; 2],
        ) -> u32;
    }
}

// Sound for states and lists that the exported function of the same name accepts.

pub fn add_equal_conditions(arena: &ArenaCells, group: &mut GroupCells, left: u32, right: u32) -> u32 {
    unsafe { c::unchecked_add_equal_conditions(arena, group, left, right) }
}

/// The answer itself: 1 for yes, 0 for no.
pub fn exprs_equal(arena: &ArenaCells, group: &GroupCells, left: u32, right: u32) -> u32 {
    unsafe { c::unchecked_exprs_equal(arena, group, left, right) }
}

pub fn normalize_expr(arena: &mut ArenaCells, group: &GroupCells, expr: u32, answer: &mut [u32; 1]) -> u32 {
    unsafe { c::unchecked_normalize_expr(arena, group, expr, answer) }
}

pub fn new_group(classes: &[u32], made: &mut GroupCells) -> u32 {
    unsafe { c::unchecked_new_group(classes.as_ptr(), classes.len(), made) }
}

pub fn add_orderings(orderings: &mut OrderingsCells, numbers: &[u16]) -> u32 {
    unsafe { c::unchecked_add_orderings(orderings, numbers.as_ptr(), numbers.len()) }
}

pub fn generate_dependency_orderings(
    map: &MapCells,
    keys: &[u32],
    output: &mut [u16],
    answer: &mut [usize; 2],
) -> u32 {
    let (keys, keys_count) = (keys.as_ptr(), keys.len());
    let (output, output_count) = (output.as_mut_ptr(), output.len());
    unsafe { c::unchecked_generate_dependency_orderings(map, keys, keys_count, output, output_count, answer) }
}
