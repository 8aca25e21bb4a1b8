#include "first_refusals.h"

#include <stdbool.h>
#include <stddef.h>
#include <stdint.h>

#include "asking.h"
#include "expecting.h"
#include "galthumir.h"
#include "good.h"
#include "worked.h"

#define NUMBER GALTHUMIR_REFUSED_NUMBER
#define STATE GALTHUMIR_REFUSED_STATE
#define EXPRESSION GALTHUMIR_REFUSED_EXPRESSION
#define FULL GALTHUMIR_REFUSED_ARENA_FULL
#define TOO_LARGE GALTHUMIR_REFUSED_TOO_LARGE
#define SHORT GALTHUMIR_REFUSED_OUTPUT_SHORT

#define LIMIT GALTHUMIR_GROUP_LIMIT
#define USED GALTHUMIR_GROUP_USED
#define SIZES GALTHUMIR_GROUP_SIZES
#define FLAVOURS GALTHUMIR_GROUP_FLAVOURS
#define VALUES GALTHUMIR_GROUP_VALUES
#define MEMBERS GALTHUMIR_GROUP_MEMBERS

/* 28 nodes are counted, and there are 27. */
static void use_no_arena(void)
{
    use_worked_states();
    arena[GALTHUMIR_ARENA_COUNT] = WORKED_NODES + 1;
}

/* ---- Groups ---- */

static void condition(uint32_t wanted, uint32_t left, uint32_t right, const char *what)
{
    expect_refusal(wanted, ask_condition(left, right), "galthumir_add_equal_conditions", what);
}

static void constant(uint32_t wanted, uint32_t expr, uint32_t flavour, uint32_t value, const char *what)
{
    expect_refusal(wanted, ask_constant(expr, flavour, value), "galthumir_add_constant", what);
}

void first_refusals_of_groups(void)
{
    use_no_arena();
    constant(NUMBER, 28, 3, 0, "a flavour, no arena, an unknown expression");
    constant(NUMBER, 28, 0, 5, "a value, no arena, an unknown expression");
    condition(STATE, 0, 28, "no arena, an unknown expression");
    constant(STATE, 28, 2, 7, "no arena, an unknown expression");
    expect_refusal(STATE, ask_class(28), "galthumir_get_equivalence_class", "no arena, an unknown expression");
    expect_refusal(STATE, ask_whether_equal(28, 0), "galthumir_exprs_equal", "no arena, an unknown expression");
    expect_refusal(STATE, ask_whether_constant(28), "galthumir_is_expr_constant", "no arena, an unknown expression");
    group[USED] = 9;
    constant(NUMBER, 28, 1, 5, "a value, no arena, counts");
    group[LIMIT] = 0;
    condition(NUMBER, 28, 28, "limit 0, no arena, counts, an unknown expression");
    use_worked_states();
    group[MEMBERS + 1] = 27;
    group[MEMBERS + 9] = 1;
    condition(STATE, 0, 28, "an unused member, an unknown member, an unknown expression");
    restore_states();
}

/* ---- Sort keys ---- */

static void key(uint32_t wanted, uint32_t expr, uint32_t options, const char *what)
{
    expect_refusal(wanted, ask_key(expr, options), "galthumir_normalize_sort_expr", what);
}

static void keys_of(uint32_t wanted, struct list lent, const char *what)
{
    expect_refusal(wanted, ask_keys(lent), "galthumir_normalize_sort_exprs", what);
}

/* Each of the three calls on one expression. */
static void all_forms(uint32_t wanted, uint32_t expr, const char *what)
{
    expect_refusal(wanted, ask_form(expr), "galthumir_normalize_expr", what);
    key(wanted, expr, 1, what);
    keys_of(wanted, LIST(expr, 1), what);
}

static uint32_t many[35];

/* So many numbers of 17 keys or of 17 and a half, all 0. */
static struct list many_keys(size_t count)
{
    return (struct list){many, count};
}

static void keys_that_are_cut(void)
{
    use_worked_states();
    keys_of(STATE, LIST(0), "half a key");
    keys_of(STATE, LIST(0, 0, 1), "a key and a half");
    keys_of(STATE, many_keys(35), "17 keys and a half");
    keys_of(STATE, LIST(27, 0, 0), "half a key, an unknown expression");
    keys_of(NUMBER, LIST(27, 4, 0), "options, half a key, an unknown expression");
    group[LIMIT] = 0;
    keys_of(NUMBER, LIST(0, 0, 1), "limit 0, half a key");
    use_worked_states();
    group[MEMBERS + 1] = 27;
    keys_of(STATE, LIST(0, 0, 0), "half a key, an unknown member");
    group[MEMBERS] = 27;
    all_forms(STATE, 27, "an unknown member twice, an unknown expression");
}

/* An arena without room for the normal form of expression 4: two columns, five operations, 1,017 columns. */
static void use_full_arena(void)
{
    use_columns(2);
    put_operation(1, (uint32_t[]){0}, 1);
    put_operation(1, (uint32_t[]){1}, 1);
    put_operation(2, (uint32_t[]){1}, 1);
    put_operation(2, (uint32_t[]){3}, 1);
    put_operation(3, (uint32_t[]){4}, 1);
    put_columns_of(1, 1017);
    use_equal(0, 1);
}

static void keys_without_room(void)
{
    use_full_arena();
    all_forms(FULL, 4, "no room");
    expect_done(ask_condition(7, 7), "galthumir_add_equal_conditions");
    group[MEMBERS + 2] = 1024;
    all_forms(EXPRESSION, 4, "an unknown member, no room");
}

void first_refusals_of_keys(void)
{
    use_no_arena();
    key(NUMBER, 28, 4, "options, no arena, an unknown expression");
    keys_of(NUMBER, LIST(28, 4), "options, no arena, an unknown expression");
    all_forms(STATE, 28, "no arena, an unknown expression");
    keys_of(STATE, many_keys(34), "no arena, 17 keys");
    keys_that_are_cut();
    keys_without_room();
    restore_states();
}

/* ---- Lists of classes, and joins ---- */

static void list_of(uint32_t wanted, struct list classes, const char *what)
{
    expect_refusal(wanted, ask_new(classes), "galthumir_new_group", what);
}

static void lists_of_classes(void)
{
    use_worked_states();
    list_of(STATE, LIST(0), "a flavour alone");
    list_of(STATE, LIST(0, 0), "no member count");
    list_of(STATE, LIST(0, 0, 2, 0), "a member count past the end");
    list_of(STATE, LIST(0, 0, 2, 0, 1, 0, 0, UINT32_MAX, 2), "a member count far past the end");
    list_of(NUMBER, LIST(0, 5, 9, 0), "a value, a member count past the end");
    list_of(STATE, LIST(0, 0, 1, 27, 0, 0, 1), "a list that is cut, an unknown expression");
    use_no_arena();
    list_of(STATE, LIST(0, 0, 2, 0, 1), "no arena");
    list_of(NUMBER, LIST(4, 0, 2, 0, 1), "a flavour, no arena");
    list_of(STATE, LIST(0, 0, 1, 28), "no arena, an unknown expression");
}

static void join_of(uint32_t wanted, uint32_t kind, size_t left_size, struct list pairs, const char *what)
{
    expect_refusal(wanted, ask_join(kind, left_size, pairs), "galthumir_join", what);
}

/* A join of groups of which one cell is another: in a kind that uses the group, and in one that doesn't. */
static void join_with(uint32_t wanted, uint32_t *cell, uint32_t value, uint32_t kind, uint32_t other, const char *what)
{
    use_worked_states();
    *cell = value;
    join_of(wanted, kind, 8, NOTHING, what);
    join_of(wanted, other, 8, NOTHING, what);
}

static void joins_of_broken_groups(void)
{
    join_with(NUMBER, group + LIMIT, 0, 0, 7, "left, limit 0");
    join_with(NUMBER, other_group + LIMIT, 257, 0, 4, "right, limit 257");
    join_with(NUMBER, other_group + FLAVOURS, 4, 0, 4, "right, flavour 4");
    join_with(NUMBER, other_group + VALUES, 1, 1, 5, "right, a value where none is known");
    join_with(STATE, group + USED, 6, 0, 8, "left, 6 members counted");
    join_with(STATE, other_group + MEMBERS + 1, 4, 0, 4, "right, a member twice");
    join_with(STATE, other_group + SIZES + 63, 1, 0, 5, "right, an unused size");
    join_with(EXPRESSION, group + MEMBERS + 1, 27, 0, 9, "left, an unknown member");
    join_with(EXPRESSION, other_group + MEMBERS + 1, UINT32_MAX, 0, 4, "right, an unknown member");
    use_worked_states();
    other_group[FLAVOURS] = GALTHUMIR_UNKNOWN;
    other_group[VALUES] = 1;
    join_of(NUMBER, 1, 8, NOTHING, "right, a value in an unknown class");
}

static void first_of_a_join(void)
{
    use_worked_states();
    join_of(STATE, 0, 8, LIST(0, 4, 1), "half a pair");
    join_of(STATE, 6, 8, LIST(0), "half a pair that isn't used");
    join_of(NUMBER, 10, 8, LIST(0), "the kind, half a pair");
    join_of(STATE, 0, 8, LIST(27, 0, 1), "half a pair, an unknown expression");
    other_group[MEMBERS + 1] = 4;
    join_of(STATE, 0, 65535, NOTHING, "a member twice, an index that leaves");
    group[MEMBERS + 1] = 27;
    join_of(STATE, 0, 8, NOTHING, "right a member twice, left an unknown member");
    use_worked_states();
    group[USED] = 6;
    join_of(NUMBER, 10, 8, NOTHING, "the kind, counts");
    other_group[LIMIT] = 0;
    join_of(NUMBER, 0, 8, NOTHING, "right limit 0, left counts");
    use_no_arena();
    join_of(STATE, 0, 8, NOTHING, "no arena");
    join_of(NUMBER, 10, 8, NOTHING, "the kind, no arena");
    join_of(STATE, 0, 8, LIST(28, 0), "no arena, an unknown expression");
}

void first_refusals_of_lists_and_joins(void)
{
    lists_of_classes();
    joins_of_broken_groups();
    first_of_a_join();
    restore_states();
}

/* ---- Projections ---- */

/* Each of the three calls on one expression, by a mapping. */
static void project(uint32_t wanted, struct list lent, uint32_t expr, const char *what)
{
    expect_refusal(wanted, ask_projection(lent, expr), "galthumir_project_expr", what);
    expect_refusal(wanted, ask_projections(lent, LIST(expr), 1), "galthumir_project_expressions", what);
    expect_refusal(wanted, ask_group_projection(lent), "galthumir_project", what);
}

static void mappings_that_are_cut(void)
{
    use_worked_states();
    project(STATE, LIST(0), 0, "a source without a count");
    project(STATE, LIST(0, 1, 4, 1), 0, "a later source without a count");
    project(STATE, LIST(0, 1, 4, 1, 1), 0, "a count past the end");
    project(STATE, LIST(0, UINT32_MAX, 4), 0, "a count far past the end");
    project(NUMBER, LIST(0, 0, 1), 0, "no targets, a source without a count");
    project(STATE, LIST(27, 1, 4, 1), 27, "a source without a count, an unknown one");
    group[LIMIT] = 0;
    project(NUMBER, LIST(0), 0, "limit 0, a source without a count");
    project(NUMBER, LIST(27, 1, 4), 27, "limit 0, an unknown source");
}

static void mappings_over_broken_states(void)
{
    use_no_arena();
    project(STATE, LIST(0, 1, 4), 0, "no arena");
    project(NUMBER, LIST(0, 0), 0, "no targets, no arena");
    project(STATE, LIST(28, 1, 4), 28, "no arena, an unknown source");
    use_worked_states();
    group[USED] = 6;
    project(STATE, LIST(0, 1, 4), 0, "counts");
    project(STATE, LIST(0, 1, 27), 0, "counts, an unknown target");
    use_worked_states();
    group[MEMBERS + 2] = 27;
    project(EXPRESSION, LIST(0, 1, 4), 0, "an unknown member");
    project(STATE, LIST(0), 0, "a source without a count, an unknown member");
}

void first_refusals_of_projections(void)
{
    mappings_that_are_cut();
    mappings_over_broken_states();
    restore_states();
}

/* ---- Outputs of a list of projections ---- */

static void project_list(uint32_t wanted, struct list lent, struct list of, size_t room, const char *what)
{
    expect_refusal(wanted, ask_projections(lent, of, room), "galthumir_project_expressions", what);
}

/* Done, with these in the output's first places and nothing changed in the others. */
static void expect_list(struct list lent, struct list of, size_t room, struct list wanted)
{
    bool unchanged = true;
    expect_done(ask_projections(lent, of, room), "galthumir_project_expressions");
    expect(same_numbers(projected_list, wanted.numbers, wanted.count), "galthumir_project_expressions", "a list");
    for (size_t k = wanted.count; k < MOST_PROJECTED; k++)
        unchanged = unchanged && projected_list[k] == 0xa5a5a5a5;
    expect(unchanged, "galthumir_project_expressions", "output past the last one");
}

static void lists_that_fit(void)
{
    struct list lent = LIST(0, 1, 4, 3, 2, 5, 6), of = LIST(0, 1, 2, 3, 10, 21, 26);
    struct list wanted = LIST(4, 4, GALTHUMIR_NONE, 5, 10, GALTHUMIR_NONE, 26);
    use_worked_states();
    use_equal(0, 1);
    expect_list(lent, of, MOST_PROJECTED, wanted);
    expect_list(lent, of, 7, wanted);
    expect_list(lent, NOTHING, MOST_PROJECTED, NOTHING);
    expect_list(lent, NOTHING, 0, NOTHING);
    expect_list(lent, LIST(2, 0, 2), 3, LIST(GALTHUMIR_NONE, 4, GALTHUMIR_NONE));
    expect_list(NOTHING, LIST(0, 8, 20), 3, LIST(GALTHUMIR_NONE, 8, 20));
}

/* In an arena with room for one node, of two that are needed. */
static void lists_that_do_not_fit(void)
{
    static uint32_t long_list[2000];
    struct list lent = LIST(0, 1, 4, 1, 1, 5);
    use_columns(1020);
    put_operation(1, (uint32_t[]){0}, 1);
    put_operation(2, (uint32_t[]){1}, 1);
    put_operation(3, (uint32_t[]){1020}, 1);
    use_empty_group();
    project_list(EXPRESSION, lent, LIST(1020, 1021, 1023), 1, "an unknown expression, no room, a short output");
    project_list(FULL, lent, LIST(1020, 1021), 1, "no room, a short output");
    project_list(SHORT, lent, LIST(0, 1020), 1, "a short output");
    project_list(SHORT, lent, LIST(0), 0, "an output without a place");
    for (size_t k = 0; k < COUNT_OF(long_list); k++)
        long_list[k] = 2;
    project_list(SHORT, lent, (struct list){long_list, COUNT_OF(long_list)}, MOST_PROJECTED, "2,000 expressions");
    expect_list(lent, LIST(1, 1020, 2, 1020), 4, LIST(5, 1023, GALTHUMIR_NONE, 1023));
}

void outputs_of_projections(void)
{
    lists_that_fit();
    lists_that_do_not_fit();
    restore_states();
}
