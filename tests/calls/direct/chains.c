#include "chains.h"

#include <stdbool.h>
#include <stddef.h>
#include <stdint.h>
#include <string.h>

#include "asking.h"
#include "expecting.h"
#include "galthumir.h"
#include "good.h"
#include "worked.h"

#define FULL GALTHUMIR_REFUSED_ARENA_FULL
#define ALL GALTHUMIR_MAX_CHILDREN

/* So many operations over an expression, each with the one before as all of its children. Answers the last. */
static uint32_t put_chain(uint32_t bottom, uint32_t length, uint32_t width)
{
    uint32_t top = bottom;
    for (uint32_t k = 0; k < length; k++) {
        uint32_t of[ALL] = {top, top, top, top, top, top, top, top};
        top = put_operation(1, of, width);
    }
    return top;
}

/* The same with the expression as seven children and the one before as the last: no walk is deeper. */
static uint32_t put_last_chain(uint32_t bottom, uint32_t length)
{
    uint32_t top = bottom;
    for (uint32_t k = 0; k < length; k++) {
        uint32_t of[ALL] = {bottom, bottom, bottom, bottom, bottom, bottom, bottom, top};
        top = put_operation(2, of, ALL);
    }
    return top;
}

/* ---- What is expected ---- */

static uint32_t before[GALTHUMIR_ARENA_CELLS];

/* Keeps the nodes as they are before the next call. */
static void keep_nodes(void)
{
    memcpy(before, arena, sizeof arena);
}

/* The nodes that were kept are as they were, and so many are new. */
static void expect_added(uint32_t added, const char *call)
{
    uint32_t count = before[GALTHUMIR_ARENA_COUNT];
    expect(arena[GALTHUMIR_ARENA_COUNT] == count + added, call, "how many nodes it adds");
    expect(same_numbers(arena + GALTHUMIR_ARENA_NODES, before + GALTHUMIR_ARENA_NODES, GALTHUMIR_NODE_CELLS * count),
           call, "the nodes that were there");
}

/* A call that answers this expression and has added so many nodes. */
static void expect_expression(uint32_t returned, uint32_t answer, uint32_t wanted, uint32_t added, const char *call)
{
    expect_done(returned, call);
    expect(answer == wanted, call, "the expression that it answers");
    expect_added(added, call);
    keep_nodes();
}

static void expect_shift(uint32_t expr, int64_t offset, uint32_t wanted, uint32_t added)
{
    uint32_t returned = ask_shift(expr, offset);
    expect_expression(returned, numbers[0], wanted, added, "galthumir_add_offset_to_expr");
}

static void expect_no_shift(uint32_t refusal, uint32_t expr, int64_t offset)
{
    expect_refusal(refusal, ask_shift(expr, offset), "galthumir_add_offset_to_expr", "a chain");
}

/* An operation of label 1 whose children are all the same. */
static void expect_operation(uint32_t expr, uint32_t width, uint32_t child)
{
    uint32_t wanted[] = {GALTHUMIR_OPERATION, 1, width}, there[] = {1, child};
    expect_done(ask_node(expr), "galthumir_read_node");
    expect(same_numbers(numbers, wanted, COUNT_OF(wanted)), "galthumir_read_node", "an operation of a chain");
    for (uint32_t place = 0; place < width; place++) {
        expect_done(ask_child(expr, place), "galthumir_read_child");
        expect(same_numbers(numbers, there, COUNT_OF(there)), "galthumir_read_child", "a child of a chain");
    }
}

static void expect_answer(uint32_t left, uint32_t right, uint32_t wanted)
{
    expect_done(ask_whether_equal(left, right), "galthumir_exprs_equal");
    expect(numbers[0] == wanted, "galthumir_exprs_equal", "two chains");
}

static void expect_constant(uint32_t expr, uint32_t flavour, uint32_t value)
{
    uint32_t wanted[] = {flavour, value};
    expect_done(ask_whether_constant(expr), "galthumir_is_expr_constant");
    expect(same_numbers(numbers, wanted, COUNT_OF(wanted)), "galthumir_is_expr_constant", "a chain");
}

static void expect_form(uint32_t expr, uint32_t wanted, uint32_t added)
{
    uint32_t returned = ask_form(expr);
    expect_expression(returned, numbers[0], wanted, added, "galthumir_normalize_expr");
}

static void expect_no_form(uint32_t expr)
{
    expect_refusal(FULL, ask_form(expr), "galthumir_normalize_expr", "a chain");
}

static void expect_projection(struct list mapping, uint32_t expr, uint32_t wanted, uint32_t added)
{
    uint32_t returned = ask_projection(mapping, expr);
    expect(numbers[0] == 1, "galthumir_project_expr", "that there is one");
    expect_expression(returned, numbers[1], wanted, added, "galthumir_project_expr");
}

static void expect_nothing(struct list mapping, uint32_t expr)
{
    uint32_t nothing[] = {0, 0};
    expect_done(ask_projection(mapping, expr), "galthumir_project_expr");
    expect(same_numbers(numbers, nothing, COUNT_OF(nothing)), "galthumir_project_expr", "that there is none");
    expect_added(0, "galthumir_project_expr");
}

static void expect_no_projection(struct list mapping, uint32_t expr)
{
    expect_refusal(FULL, ask_projection(mapping, expr), "galthumir_project_expr", "a chain");
}

/* ---- Shifts ---- */

/* So many operations over column 0. */
static void use_chain(uint32_t length, uint32_t width)
{
    use_columns(1);
    put_chain(0, length, width);
    keep_nodes();
}

/* Shifted they would need 2,002 nodes. The first 22 of them just fit. */
static void shifts_of_1000_doublings(void)
{
    use_chain(1000, 2);
    expect_no_shift(FULL, 1000, 5);
    expect_shift(1000, 0, 1000, 0);
    expect_no_shift(FULL, 23, 5);
    expect_shift(22, 5, 1023, 23);
    expect_shift(21, 5, 1022, 0);
}

/* There and back. */
static void shifts_of_500(uint32_t width)
{
    use_chain(500, width);
    expect_shift(500, 5, 1001, 501);
    expect_shift(1001, -5, 500, 0);
    expect_shift(500, 5, 1001, 0);
    expect_shift(500, 0, 500, 0);
    expect_operation(502, width, 501);
    expect_operation(1001, width, 1000);
}

/* The deepest expression that an arena holds. */
static void shifts_of_1023(void)
{
    use_chain(1023, ALL);
    expect_shift(1023, 0, 1023, 0);
    expect_no_shift(FULL, 1023, 5);
    expect_no_shift(GALTHUMIR_REFUSED_INDEX, 1023, -5);
}

void shifts_of_chains(void)
{
    uint32_t column[] = {GALTHUMIR_COLUMN, 0, 5};
    shifts_of_1000_doublings();
    shifts_of_500(2);
    expect_done(ask_node(501), "galthumir_read_node");
    expect(same_numbers(numbers, column, COUNT_OF(column)), "galthumir_read_node", "the shifted column");
    shifts_of_500(ALL);
    shifts_of_1023();
    restore_states();
}

/* ---- Questions ---- */

/* 500 doublings over a column, and the same shifted by one: equal where the two columns are, expressions 0 and 501. */
static void questions_on_two(void)
{
    use_chain(500, 2);
    expect_shift(500, 1, 1001, 501);
    use_empty_group();
    expect_answer(500, 1001, 0);
    expect_constant(500, GALTHUMIR_NO_CONSTANT, 0);
    use_equal(0, 501);
    expect_answer(500, 1001, 1);
    expect_answer(1001, 500, 1);
    expect_answer(499, 1001, 0);
    expect_done(ask_constant(0, GALTHUMIR_UNKNOWN - 1, 0), "galthumir_add_constant");
    expect_constant(1001, GALTHUMIR_HETEROGENEOUS, 0);
}

/* 1,000 doublings over a column. Where it equals the first of them, each operation equals the next. */
static void questions_over_a_column(void)
{
    use_chain(1000, 2);
    use_empty_group();
    expect_constant(1000, GALTHUMIR_NO_CONSTANT, 0);
    expect_answer(1000, 999, 0);
    use_equal(0, 1);
    expect_answer(1000, 999, 1);
    expect_answer(999, 1000, 1);
    expect_done(ask_constant(1, GALTHUMIR_KNOWN - 1, 7), "galthumir_add_constant");
    expect_constant(1000, GALTHUMIR_HETEROGENEOUS, 0);
}

/* 1,000 doublings over literal 5 are constant by their children. */
static void questions_over_a_literal(void)
{
    use_columns(0);
    expect_done(galthumir_add_literal(arena, 5, numbers), "galthumir_add_literal");
    put_chain(0, 1000, 2);
    use_empty_group();
    expect_constant(0, GALTHUMIR_KNOWN, 5);
    expect_constant(1000, GALTHUMIR_HETEROGENEOUS, 0);
    expect_answer(1000, 999, 0);
}

void questions_on_chains(void)
{
    questions_on_two();
    questions_over_a_column();
    questions_over_a_literal();
    restore_states();
}

/* ---- Normal forms ---- */

/* Columns 0 and 1, which are equal, and so many operations over one of them. Answers the last. */
static uint32_t use_equal_columns(uint32_t bottom, uint32_t length, uint32_t width)
{
    use_columns(2);
    uint32_t top = put_chain(bottom, length, width);
    keep_nodes();
    use_equal(0, 1);
    return top;
}

static void forms_that_fit(uint32_t length)
{
    uint32_t top = use_equal_columns(1, length, 2);
    expect_form(top, top + length, length);
    expect_form(top, top + length, 0);
}

static void forms_that_do_not_fit(uint32_t length, uint32_t width)
{
    uint32_t top = use_equal_columns(1, length, width);
    expect_no_form(top);
    expect_no_form(top);
}

/* Over a column that equals the first of the operations, each comes down to the column. */
static void forms_that_fall(uint32_t length, uint32_t width)
{
    use_chain(length, width);
    use_equal(0, 1);
    expect_form(length, 0, 0);
}

/* The last operation but one of 500 doublings, the last, and the last once more. */
static void forms_as_keys(void)
{
    uint16_t wanted[] = {3, GALTHUMIR_KEY(1000, 1), GALTHUMIR_KEY(1001, 0), GALTHUMIR_KEY(1001, 3)};
    use_equal_columns(1, 500, 2);
    for (int twice = 0; twice < 2; twice++) {
        expect_done(ask_keys(LIST(500, 1, 501, 0, 501, 3)), "galthumir_normalize_sort_exprs");
        expect(memcmp(made_ordering, wanted, sizeof wanted) == 0, "galthumir_normalize_sort_exprs", "keys of a chain");
        expect_added(500, "galthumir_normalize_sort_exprs");
    }
}

void normal_forms_of_chains(void)
{
    forms_that_do_not_fit(1000, 2);
    use_equal_columns(0, 1000, 2);
    expect_form(1001, 1001, 0);
    expect_form(1001, 1001, 0);
    forms_that_fit(500);
    forms_that_fit(511);
    forms_that_do_not_fit(512, 2);
    forms_that_do_not_fit(1022, ALL);
    forms_that_fall(1000, 2);
    forms_that_fall(1023, ALL);
    forms_as_keys();
    restore_states();
}

/* ---- Projections ---- */

#define TO_ITSELF LIST(0, 1, 0)
#define TO_THE_OTHER LIST(0, 1, 1)
#define OF_THE_OTHER LIST(1, 1, 0)

/* So many doublings over column 0, beside column 1; no classes. Answers the last. */
static uint32_t use_doublings(uint32_t length)
{
    use_columns(2);
    uint32_t top = put_chain(0, length, 2);
    keep_nodes();
    use_empty_group();
    return top;
}

static void projections_of_1000_doublings(void)
{
    uint32_t top = use_doublings(1000);
    expect_projection(TO_ITSELF, top, top, 0);
    expect_projection(TO_ITSELF, 2, 2, 0);
    expect_nothing(OF_THE_OTHER, top);
    expect_nothing(OF_THE_OTHER, 2);
    expect_no_projection(TO_THE_OTHER, top);
    expect_refusal(FULL, ask_projections(TO_THE_OTHER, LIST(top, 2, top), 3), "galthumir_project_expressions",
                   "a chain");
    expect_projection(TO_THE_OTHER, 2, 1002, 1);
    expect_operation(1002, 2, 1);
}

static void projections_of_500_doublings(void)
{
    uint32_t top = use_doublings(500), wanted[] = {1001, 502, 1001};
    expect_projection(TO_ITSELF, top, top, 0);
    expect_projection(TO_ITSELF, 2, 2, 0);
    expect_nothing(OF_THE_OTHER, top);
    expect_nothing(OF_THE_OTHER, 2);
    expect_done(ask_projections(TO_THE_OTHER, LIST(top, 2, top), 3), "galthumir_project_expressions");
    expect(same_numbers(projected_list, wanted, COUNT_OF(wanted)), "galthumir_project_expressions", "chains");
    expect_added(500, "galthumir_project_expressions");
    expect_operation(1001, 2, 1000);
    use_doublings(500);
    expect_projection(TO_THE_OTHER, 2, 502, 1);
    expect_operation(502, 2, 1);
    use_doublings(500);
    expect_projection(TO_THE_OTHER, top, 1001, 500);
    expect_operation(1001, 2, 1000);
}

/* 511 fill the arena, 512 don't fit. */
static void projections_that_fill(void)
{
    uint32_t top = use_doublings(511);
    expect_projection(TO_THE_OTHER, top, 1023, 511);
    expect_projection(TO_THE_OTHER, top, 1023, 0);
    expect_operation(1023, 2, 1022);
    top = use_doublings(512);
    expect_no_projection(TO_THE_OTHER, top);
    expect_no_projection(TO_THE_OTHER, top);
}

/* The deepest walks: 1,023 operations of eight children in a full arena, and 511 of which each becomes a new one. */
static void projections_of_the_deepest(void)
{
    use_chain(1023, ALL);
    use_empty_group();
    expect_projection(TO_ITSELF, 1023, 1023, 0);
    use_columns(1);
    put_last_chain(0, 1023);
    keep_nodes();
    expect_projection(TO_ITSELF, 1023, 1023, 0);
    expect_done(ask_constant(1023, GALTHUMIR_UNKNOWN - 1, 0), "galthumir_add_constant");
    expect_done(ask_group_projection(TO_ITSELF), "galthumir_project");
    expect(made_group[GALTHUMIR_GROUP_COUNT] == 0, "galthumir_project", "no class of a chain");
    expect_added(0, "galthumir_project");
}

static void projections_that_fill_by_the_last(void)
{
    uint32_t wanted[] = {1, 1, 1, 1, 1, 1, 1, 1022};
    use_columns(2);
    put_last_chain(0, 511);
    keep_nodes();
    use_empty_group();
    expect_projection(TO_THE_OTHER, 512, 1023, 511);
    expect_projection(TO_THE_OTHER, 512, 1023, 0);
    const uint32_t *last = arena + GALTHUMIR_ARENA_NODES + GALTHUMIR_NODE_CELLS * 1023;
    expect(last[GALTHUMIR_NODE_PAYLOAD] == 2 && same_numbers(last + GALTHUMIR_NODE_CHILDREN, wanted, COUNT_OF(wanted)),
           "galthumir_project_expr", "the last node");
}

/* A group of one class of two. */
static void expect_pair(uint32_t first, uint32_t second)
{
    uint32_t wanted[] = {first, second};
    expect(made_group[GALTHUMIR_GROUP_COUNT] == 1 && made_group[GALTHUMIR_GROUP_USED] == 2 &&
               same_numbers(made_group + GALTHUMIR_GROUP_MEMBERS, wanted, COUNT_OF(wanted)),
           "galthumir_project", "one class of two");
}

/* 250 doublings over each of two columns: as sources they become one class of targets, as members 500 new nodes. */
static void projections_of_groups(void)
{
    use_columns(2);
    uint32_t left = put_chain(0, 250, 2), right = put_chain(1, 250, 2);
    expect_done(galthumir_add_column(arena, 1, 0, numbers), "galthumir_add_column");
    expect_done(galthumir_add_column(arena, 1, 1, numbers), "galthumir_add_column");
    keep_nodes();
    use_equal(0, 1);
    expect_done(ask_group_projection(LIST(left, 1, 502, right, 1, 503)), "galthumir_project");
    expect_pair(502, 503);
    expect_added(0, "galthumir_project");
    use_equal(left, right);
    expect_done(ask_group_projection(LIST(0, 1, 502, 1, 1, 503)), "galthumir_project");
    expect_pair(753, 1003);
    expect_added(500, "galthumir_project");
}

void projections_of_chains(void)
{
    projections_of_1000_doublings();
    projections_of_500_doublings();
    projections_that_fill();
    projections_of_the_deepest();
    projections_that_fill_by_the_last();
    projections_of_groups();
    restore_states();
}
