//! The functions of libgalthumir.a, each as `include/galthumir.h` declares it; `tests/header.rs` compares the two.
//!
//! A function reads and writes only what it is lent, ends on every input, and keeps nothing. So one that is lent numbers
//! and references to arrays alone is safe to call: a reference is never null, has the size that its type says, and
//! `&mut` overlaps nothing. One that is lent a list as a pointer and a count is safe where the two are those of one
//! slice: also of an empty one, whose pointer isn't null.

use crate::layout::{ARENA_CELLS, GROUP_CELLS, MAP_CELLS, ORDERINGS_CELLS, ORDERING_CELLS};

unsafe extern "C" {
    pub safe fn galthumir_check_arena(arena: &[u32; ARENA_CELLS]) -> u32;
    pub safe fn galthumir_add_column(
        arena: &mut [u32; ARENA_CELLS],
        name: u16,
        index: u16,
        answer: &mut [u32; 1],
    ) -> u32;
    pub safe fn galthumir_add_literal(arena: &mut [u32; ARENA_CELLS], value: u32, answer: &mut [u32; 1]) -> u32;
    pub unsafe fn galthumir_add_operation(
        arena: &mut [u32; ARENA_CELLS],
        label: u32,
        children: *const u32,
        children_count: usize,
        answer: &mut [u32; 1],
    ) -> u32;
    pub safe fn galthumir_read_node(arena: &[u32; ARENA_CELLS], expr: u32, answer: &mut [u32; 3]) -> u32;
    pub safe fn galthumir_read_child(arena: &[u32; ARENA_CELLS], expr: u32, place: u32, answer: &mut [u32; 2])
        -> u32;
    pub safe fn galthumir_add_offset_to_expr(
        arena: &mut [u32; ARENA_CELLS],
        expr: u32,
        offset: i64,
        answer: &mut [u32; 1],
    ) -> u32;
    pub safe fn galthumir_open_group(limit: u32, made: &mut [u32; GROUP_CELLS]) -> u32;
    pub safe fn galthumir_check_group(arena: &[u32; ARENA_CELLS], group: &[u32; GROUP_CELLS]) -> u32;
    pub safe fn galthumir_get_equivalence_class(
        arena: &[u32; ARENA_CELLS],
        group: &[u32; GROUP_CELLS],
        expr: u32,
        answer: &mut [usize; 6],
    ) -> u32;
    pub safe fn galthumir_add_equal_conditions(
        arena: &[u32; ARENA_CELLS],
        group: &mut [u32; GROUP_CELLS],
        left: u32,
        right: u32,
        answer: &mut [u32; 1],
    ) -> u32;
    pub safe fn galthumir_add_constant(
        arena: &[u32; ARENA_CELLS],
        group: &mut [u32; GROUP_CELLS],
        expr: u32,
        flavour: u32,
        value: u32,
    ) -> u32;
    pub safe fn galthumir_clear_per_partition_constants(
        arena: &[u32; ARENA_CELLS],
        group: &mut [u32; GROUP_CELLS],
        answer: &mut [u32; 1],
    ) -> u32;
    pub safe fn galthumir_exprs_equal(
        arena: &[u32; ARENA_CELLS],
        group: &[u32; GROUP_CELLS],
        left: u32,
        right: u32,
        answer: &mut [u32; 1],
    ) -> u32;
    pub safe fn galthumir_is_expr_constant(
        arena: &[u32; ARENA_CELLS],
        group: &[u32; GROUP_CELLS],
        expr: u32,
        answer: &mut [u32; 2],
    ) -> u32;
    pub safe fn galthumir_normalize_expr(
        arena: &mut [u32; ARENA_CELLS],
        group: &[u32; GROUP_CELLS],
        expr: u32,
        answer: &mut [u32; 1],
    ) -> u32;
    pub safe fn galthumir_normalize_sort_expr(
        arena: &mut [u32; ARENA_CELLS],
        group: &[u32; GROUP_CELLS],
        expr: u32,
        options: u32,
        answer: &mut [u32; 2],
    ) -> u32;
    pub unsafe fn galthumir_normalize_sort_exprs(
        arena: &mut [u32; ARENA_CELLS],
        group: &[u32; GROUP_CELLS],
        keys: *const u32,
        keys_count: usize,
        answer: &mut [u16; ORDERING_CELLS],
    ) -> u32;
    pub unsafe fn galthumir_new_group(
        arena: &[u32; ARENA_CELLS],
        classes: *const u32,
        classes_count: usize,
        made: &mut [u32; GROUP_CELLS],
    ) -> u32;
    pub unsafe fn galthumir_join(
        arena: &mut [u32; ARENA_CELLS],
        left: &[u32; GROUP_CELLS],
        right: &[u32; GROUP_CELLS],
        kind: u32,
        left_size: usize,
        pairs: *const u32,
        pairs_count: usize,
        made: &mut [u32; GROUP_CELLS],
    ) -> u32;
    pub unsafe fn galthumir_project(
        arena: &mut [u32; ARENA_CELLS],
        group: &[u32; GROUP_CELLS],
        mapping: *const u32,
        mapping_count: usize,
        made: &mut [u32; GROUP_CELLS],
    ) -> u32;
    pub unsafe fn galthumir_project_expr(
        arena: &mut [u32; ARENA_CELLS],
        group: &[u32; GROUP_CELLS],
        mapping: *const u32,
        mapping_count: usize,
        expr: u32,
        answer: &mut [u32; 2],
    ) -> u32;
    pub unsafe fn galthumir_project_expressions(
        arena: &mut [u32; ARENA_CELLS],
        group: &[u32; GROUP_CELLS],
        mapping: *const u32,
        mapping_count: usize,
        exprs: *const u32,
        exprs_count: usize,
        output: *mut u32,
        output_count: usize,
    ) -> u32;
    pub safe fn galthumir_check_orderings(arena: &[u32; ARENA_CELLS], orderings: &[u16; ORDERINGS_CELLS]) -> u32;
    pub unsafe fn galthumir_new_orderings(
        arena: &[u32; ARENA_CELLS],
        numbers: *const u16,
        numbers_count: usize,
        made: &mut [u16; ORDERINGS_CELLS],
    ) -> u32;
    pub unsafe fn galthumir_add_orderings(
        arena: &[u32; ARENA_CELLS],
        orderings: &mut [u16; ORDERINGS_CELLS],
        numbers: *const u16,
        numbers_count: usize,
    ) -> u32;
    pub unsafe fn galthumir_extend_orderings(
        arena: &[u32; ARENA_CELLS],
        orderings: &mut [u16; ORDERINGS_CELLS],
        numbers: *const u16,
        numbers_count: usize,
    ) -> u32;
    pub safe fn galthumir_clear_orderings(arena: &[u32; ARENA_CELLS], orderings: &mut [u16; ORDERINGS_CELLS]) -> u32;
    pub safe fn galthumir_get_options(
        arena: &[u32; ARENA_CELLS],
        orderings: &[u16; ORDERINGS_CELLS],
        expr: u32,
        answer: &mut [u32; 2],
    ) -> u32;
    pub safe fn galthumir_is_expr_partial_const(
        arena: &[u32; ARENA_CELLS],
        orderings: &[u16; ORDERINGS_CELLS],
        expr: u32,
        answer: &mut [u32; 1],
    ) -> u32;
    pub safe fn galthumir_output_ordering(
        arena: &[u32; ARENA_CELLS],
        orderings: &[u16; ORDERINGS_CELLS],
        answer: &mut [u16; ORDERING_CELLS],
    ) -> u32;
    pub safe fn galthumir_join_suffix(
        arena: &[u32; ARENA_CELLS],
        orderings: &[u16; ORDERINGS_CELLS],
        other: &[u16; ORDERINGS_CELLS],
        made: &mut [u16; ORDERINGS_CELLS],
    ) -> u32;
    pub safe fn galthumir_add_offset(
        arena: &mut [u32; ARENA_CELLS],
        orderings: &mut [u16; ORDERINGS_CELLS],
        offset: i64,
    ) -> u32;
    pub safe fn galthumir_check_map(arena: &[u32; ARENA_CELLS], map: &[u16; MAP_CELLS]) -> u32;
    pub safe fn galthumir_insert(
        arena: &[u32; ARENA_CELLS],
        map: &mut [u16; MAP_CELLS],
        expr: u32,
        options: u32,
        target_expr: u32,
        target_options: u32,
        dependency_expr: u32,
        dependency_options: u32,
    ) -> u32;
    pub unsafe fn galthumir_construct_prefix_orderings(
        arena: &[u32; ARENA_CELLS],
        map: &[u16; MAP_CELLS],
        expr: u32,
        options: u32,
        output: *mut u16,
        output_count: usize,
        answer: &mut [usize; 2],
    ) -> u32;
    pub unsafe fn galthumir_generate_dependency_orderings(
        arena: &[u32; ARENA_CELLS],
        map: &[u16; MAP_CELLS],
        keys: *const u32,
        keys_count: usize,
        output: *mut u16,
        output_count: usize,
        answer: &mut [usize; 2],
    ) -> u32;
    pub unsafe fn galthumir_read_record(bytes: *const u8, bytes_count: usize, answer: &mut [usize; 4]) -> u32;
    pub unsafe fn galthumir_read_group(
        arena: &[u32; ARENA_CELLS],
        bytes: *const u8,
        bytes_count: usize,
        made: &mut [u32; GROUP_CELLS],
    ) -> u32;
    pub unsafe fn galthumir_chosen(
        kind: u32,
        left: *const u8,
        left_count: usize,
        right: *const u8,
        right_count: usize,
        answer: &mut [usize; 2],
    ) -> u32;
    pub unsafe fn galthumir_session(
        input: *const u8,
        input_count: usize,
        output: *mut u8,
        output_count: usize,
        answer: &mut [usize; 1],
    ) -> u32;
}
