#include "asking.h"

#include "galthumir.h"
#include "good.h"
#include "lent.h"

uint32_t other_group[GALTHUMIR_GROUP_CELLS];
uint32_t projected_list[MOST_PROJECTED];

/* A list, as pointer and count. */
#define LEND_LIST(list) lend((list).numbers, (list).count * sizeof(uint32_t)), (list).count

uint32_t ask_operation(uint32_t label, struct list of)
{
    return galthumir_add_operation(LEND(arena), label, LEND_LIST(of), LEND_BLANK(numbers));
}

uint32_t ask_node(uint32_t expr)
{
    return galthumir_read_node(LEND(arena), expr, LEND_BLANK(numbers));
}

uint32_t ask_child(uint32_t expr, uint32_t place)
{
    return galthumir_read_child(LEND(arena), expr, place, LEND_BLANK(numbers));
}

uint32_t ask_shift(uint32_t expr, int64_t offset)
{
    return galthumir_add_offset_to_expr(LEND(arena), expr, offset, LEND_BLANK(numbers));
}

uint32_t ask_open(uint32_t limit)
{
    return galthumir_open_group(limit, LEND(group));
}

uint32_t ask_condition(uint32_t left, uint32_t right)
{
    return galthumir_add_equal_conditions(LEND(arena), LEND(group), left, right, LEND_BLANK(numbers));
}

uint32_t ask_constant(uint32_t expr, uint32_t flavour, uint32_t value)
{
    return galthumir_add_constant(LEND(arena), LEND(group), expr, flavour, value);
}

uint32_t ask_class(uint32_t expr)
{
    return galthumir_get_equivalence_class(LEND(arena), LEND(group), expr, LEND_BLANK(sizes));
}

uint32_t ask_whether_equal(uint32_t left, uint32_t right)
{
    return galthumir_exprs_equal(LEND(arena), LEND(group), left, right, LEND_BLANK(numbers));
}

uint32_t ask_whether_constant(uint32_t expr)
{
    return galthumir_is_expr_constant(LEND(arena), LEND(group), expr, LEND_BLANK(numbers));
}

uint32_t ask_form(uint32_t expr)
{
    return galthumir_normalize_expr(LEND(arena), LEND(group), expr, LEND_BLANK(numbers));
}

uint32_t ask_key(uint32_t expr, uint32_t options)
{
    return galthumir_normalize_sort_expr(LEND(arena), LEND(group), expr, options, LEND_BLANK(numbers));
}

uint32_t ask_keys(struct list keys)
{
    return galthumir_normalize_sort_exprs(LEND(arena), LEND(group), LEND_LIST(keys), LEND_BLANK(made_ordering));
}

uint32_t ask_new(struct list classes)
{
    return galthumir_new_group(LEND(arena), LEND_LIST(classes), LEND_BLANK(made_group));
}

uint32_t ask_join(uint32_t kind, size_t left_size, struct list pairs)
{
    return galthumir_join(LEND(arena), LEND(group), LEND(other_group), kind, left_size, LEND_LIST(pairs),
                          LEND_BLANK(made_group));
}

uint32_t ask_group_projection(struct list mapping)
{
    return galthumir_project(LEND(arena), LEND(group), LEND_LIST(mapping), LEND_BLANK(made_group));
}

uint32_t ask_projection(struct list mapping, uint32_t expr)
{
    return galthumir_project_expr(LEND(arena), LEND(group), LEND_LIST(mapping), expr, LEND_BLANK(numbers));
}

uint32_t ask_projections(struct list mapping, struct list of, size_t room)
{
    return galthumir_project_expressions(LEND(arena), LEND(group), LEND_LIST(mapping), LEND_LIST(of),
                                         LEND_BLANK(projected_list), room);
}
