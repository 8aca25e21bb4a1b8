#include "every_call.h"

#include "expecting.h"
#include "galthumir.h"
#include "good.h"
#include "lent.h"

size_t cut;

/* A list of things that take several numbers each, as pointer and count. */
#define LEND_CUT(array) LEND(array), COUNT_OF(array) - cut

static uint32_t check_arena(void)
{
    return galthumir_check_arena(LEND(arena));
}

static uint32_t add_column(void)
{
    return galthumir_add_column(LEND(arena), 9, 9, LEND_BLANK(numbers));
}

static uint32_t add_literal(void)
{
    return galthumir_add_literal(LEND(arena), 9, LEND_BLANK(numbers));
}

static uint32_t add_operation(void)
{
    return galthumir_add_operation(LEND(arena), 9, LEND(children), COUNT_OF(children), LEND_BLANK(numbers));
}

static uint32_t read_node(void)
{
    return galthumir_read_node(LEND(arena), A, LEND_BLANK(numbers));
}

static uint32_t read_child(void)
{
    return galthumir_read_child(LEND(arena), SUM, 0, LEND_BLANK(numbers));
}

static uint32_t add_offset_to_expr(void)
{
    return galthumir_add_offset_to_expr(LEND(arena), A, 9, LEND_BLANK(numbers));
}

static uint32_t check_group(void)
{
    return galthumir_check_group(LEND(arena), LEND(group));
}

static uint32_t get_equivalence_class(void)
{
    return galthumir_get_equivalence_class(LEND(arena), LEND(group), A, LEND_BLANK(sizes));
}

static uint32_t add_equal_conditions(void)
{
    return galthumir_add_equal_conditions(LEND(arena), LEND(group), A, SUM, LEND_BLANK(numbers));
}

static uint32_t add_constant(void)
{
    return galthumir_add_constant(LEND(arena), LEND(group), SUM, 0, 0);
}

static uint32_t clear_per_partition_constants(void)
{
    return galthumir_clear_per_partition_constants(LEND(arena), LEND(group), LEND_BLANK(numbers));
}

static uint32_t exprs_equal(void)
{
    return galthumir_exprs_equal(LEND(arena), LEND(group), A, B, LEND_BLANK(numbers));
}

static uint32_t is_expr_constant(void)
{
    return galthumir_is_expr_constant(LEND(arena), LEND(group), A, LEND_BLANK(numbers));
}

static uint32_t normalize_expr(void)
{
    return galthumir_normalize_expr(LEND(arena), LEND(group), SUM, LEND_BLANK(numbers));
}

static uint32_t normalize_sort_expr(void)
{
    return galthumir_normalize_sort_expr(LEND(arena), LEND(group), SUM, 0, LEND_BLANK(numbers));
}

static uint32_t normalize_sort_exprs(void)
{
    return galthumir_normalize_sort_exprs(LEND(arena), LEND(group), LEND_CUT(keys), LEND_BLANK(made_ordering));
}

static uint32_t new_group(void)
{
    return galthumir_new_group(LEND(arena), LEND_CUT(classes), LEND_BLANK(made_group));
}

static uint32_t join_left(void)
{
    return galthumir_join(LEND(arena), LEND(group), LEND(good_group), 0, 2, LEND_CUT(children), LEND_BLANK(made_group));
}

static uint32_t join_right(void)
{
    return galthumir_join(LEND(arena), LEND(good_group), LEND(group), 4, 2, LEND_CUT(children), LEND_BLANK(made_group));
}

static uint32_t project(void)
{
    return galthumir_project(LEND(arena), LEND(group), LEND_CUT(mapping), LEND_BLANK(made_group));
}

static uint32_t project_expr(void)
{
    return galthumir_project_expr(LEND(arena), LEND(group), LEND_CUT(mapping), A, LEND_BLANK(numbers));
}

uint32_t project_into(size_t room)
{
    return galthumir_project_expressions(LEND(arena), LEND(group), LEND_CUT(mapping), LEND(exprs), COUNT_OF(exprs),
                                         LEND_BLANK(projected), room);
}

static uint32_t project_expressions(void)
{
    return project_into(COUNT_OF(projected));
}

static uint32_t check_orderings(void)
{
    return galthumir_check_orderings(LEND(arena), LEND(orderings));
}

static uint32_t new_orderings(void)
{
    return galthumir_new_orderings(LEND(arena), LEND_CUT(lists), LEND_BLANK(made_orderings));
}

static uint32_t add_orderings(void)
{
    return galthumir_add_orderings(LEND(arena), LEND(orderings), LEND_CUT(lists));
}

static uint32_t extend_orderings(void)
{
    return galthumir_extend_orderings(LEND(arena), LEND(orderings), LEND_CUT(lists));
}

static uint32_t clear_orderings(void)
{
    return galthumir_clear_orderings(LEND(arena), LEND(orderings));
}

static uint32_t get_options(void)
{
    return galthumir_get_options(LEND(arena), LEND(orderings), A, LEND_BLANK(numbers));
}

static uint32_t is_expr_partial_const(void)
{
    return galthumir_is_expr_partial_const(LEND(arena), LEND(orderings), A, LEND_BLANK(numbers));
}

static uint32_t output_ordering(void)
{
    return galthumir_output_ordering(LEND(arena), LEND(orderings), LEND_BLANK(made_ordering));
}

static uint32_t join_suffix_first(void)
{
    return galthumir_join_suffix(LEND(arena), LEND(orderings), LEND(good_orderings), LEND_BLANK(made_orderings));
}

static uint32_t join_suffix_second(void)
{
    return galthumir_join_suffix(LEND(arena), LEND(good_orderings), LEND(orderings), LEND_BLANK(made_orderings));
}

static uint32_t add_offset(void)
{
    return galthumir_add_offset(LEND(arena), LEND(orderings), 9);
}

static uint32_t check_map(void)
{
    return galthumir_check_map(LEND(arena), LEND(map));
}

static uint32_t insert(void)
{
    return galthumir_insert(LEND(arena), LEND(map), SUM, 0, A, 0, B, 0);
}

uint32_t prefixes_into(size_t room)
{
    return galthumir_construct_prefix_orderings(LEND(arena), LEND(map), A, 0, LEND_BLANK(enumerated), room,
                                                LEND_BLANK(sizes));
}

static uint32_t construct_prefix_orderings(void)
{
    return prefixes_into(COUNT_OF(enumerated));
}

uint32_t generate_into(size_t room)
{
    return galthumir_generate_dependency_orderings(LEND(arena), LEND(map), LEND_CUT(keys), LEND_BLANK(enumerated), room,
                                                   LEND_BLANK(sizes));
}

static uint32_t generate_dependency_orderings(void)
{
    return generate_into(COUNT_OF(enumerated));
}

uint32_t read_group_of(size_t bytes)
{
    return galthumir_read_group(LEND(arena), LEND(group_record), bytes, LEND_BLANK(made_group));
}

static uint32_t read_group(void)
{
    return read_group_of(sizeof group_record);
}

#define CALL(name, lent) {"galthumir_" #name, name, lent, false}
#define CALL_WITH_LIST(name, lent) {"galthumir_" #name, name, lent, true}

const struct call CALLS[] = {
    CALL(check_arena, ONLY_ARENA),
    CALL(add_column, ONLY_ARENA),
    CALL(add_literal, ONLY_ARENA),
    CALL(add_operation, ONLY_ARENA),
    CALL(read_node, ONLY_ARENA),
    CALL(read_child, ONLY_ARENA),
    CALL(add_offset_to_expr, ONLY_ARENA),
    CALL_WITH_LIST(new_group, ONLY_ARENA),
    CALL(read_group, ONLY_ARENA),
    CALL_WITH_LIST(new_orderings, ONLY_ARENA),
    CALL(check_group, GROUP),
    CALL(get_equivalence_class, GROUP),
    CALL(add_equal_conditions, GROUP),
    CALL(add_constant, GROUP),
    CALL(clear_per_partition_constants, GROUP),
    CALL(exprs_equal, GROUP),
    CALL(is_expr_constant, GROUP),
    CALL(normalize_expr, GROUP),
    CALL(normalize_sort_expr, GROUP),
    CALL_WITH_LIST(normalize_sort_exprs, GROUP),
    {"galthumir_join, left", join_left, GROUP, true},
    {"galthumir_join, right", join_right, GROUP, true},
    CALL_WITH_LIST(project, GROUP),
    CALL_WITH_LIST(project_expr, GROUP),
    CALL_WITH_LIST(project_expressions, GROUP),
    CALL(check_orderings, ORDERINGS),
    CALL_WITH_LIST(add_orderings, ORDERINGS),
    CALL_WITH_LIST(extend_orderings, ORDERINGS),
    CALL(clear_orderings, ORDERINGS),
    CALL(get_options, ORDERINGS),
    CALL(is_expr_partial_const, ORDERINGS),
    CALL(output_ordering, ORDERINGS),
    {"galthumir_join_suffix, first", join_suffix_first, ORDERINGS, false},
    {"galthumir_join_suffix, second", join_suffix_second, ORDERINGS, false},
    CALL(add_offset, ORDERINGS),
    CALL(check_map, MAP),
    CALL(insert, MAP),
    CALL(construct_prefix_orderings, MAP),
    CALL_WITH_LIST(generate_dependency_orderings, MAP),
};

const size_t CALLS_COUNT = COUNT_OF(CALLS);
