#include "worked.h"

#include <stdbool.h>
#include <string.h>

#include "asking.h"
#include "expecting.h"
#include "galthumir.h"
#include "good.h"

static uint32_t worked_arena[GALTHUMIR_ARENA_CELLS];
static uint32_t worked_group[GALTHUMIR_GROUP_CELLS], worked_other[GALTHUMIR_GROUP_CELLS];

/* ---- Cells written straight ---- */

static uint32_t put_node(uint32_t kind, uint32_t payload, const uint32_t *of, uint32_t count)
{
    uint32_t expr = arena[GALTHUMIR_ARENA_COUNT]++;
    uint32_t *node = arena + GALTHUMIR_ARENA_NODES + GALTHUMIR_NODE_CELLS * expr;
    node[GALTHUMIR_NODE_KIND] = kind;
    node[GALTHUMIR_NODE_PAYLOAD] = payload;
    node[GALTHUMIR_NODE_CHILD_COUNT] = count;
    memcpy(node + GALTHUMIR_NODE_CHILDREN, of, count * sizeof of[0]);
    return expr;
}

uint32_t put_operation(uint32_t label, const uint32_t *of, uint32_t count)
{
    return put_node(GALTHUMIR_OPERATION, label, of, count);
}

void put_columns_of(uint32_t name, uint32_t count)
{
    for (uint32_t index = 0; index < count; index++)
        put_node(GALTHUMIR_COLUMN, name * 65536 + index, arena, 0);
}

void use_columns(uint32_t count)
{
    memset(arena, 0, sizeof arena);
    put_columns_of(0, count);
}

void put_all(const struct put *puts)
{
    for (size_t k = 0; k < MOST_PUTS && puts[k].cell != NULL; k++)
        *puts[k].cell = puts[k].value;
}

/* ---- Groups ---- */

void use_empty_group(void)
{
    expect_done(ask_open(GALTHUMIR_MAX_MEMBERS), "galthumir_open_group");
}

void use_equal(uint32_t left, uint32_t right)
{
    use_empty_group();
    expect_done(ask_condition(left, right), "galthumir_add_equal_conditions");
}

/* ---- The arena of 27 nodes, and the group over it ---- */

static void add_literal(uint32_t value)
{
    expect_done(galthumir_add_literal(arena, value, numbers), "galthumir_add_literal");
}

static void add_operation(uint32_t label, struct list of)
{
    expect_done(ask_operation(label, of), "galthumir_add_operation");
}

static void add_operations(void)
{
    add_operation(1, LIST(0, 1));
    add_operation(2, LIST(0, 1));
    add_operation(1, LIST(1, 0));
    add_operation(1, LIST(0, 0));
    add_operation(1, LIST(0, 1, 2));
    add_operation(1, LIST(0));
    add_operation(2, LIST(1));
    add_operation(1, LIST(2));
    add_operation(1, LIST(8));
    add_operation(1, NOTHING);
    add_operation(2, NOTHING);
    add_operation(1, LIST(17));
    add_operation(2, LIST(18));
    add_operation(1, LIST(8, 0));
    add_operation(1, LIST(20, LITERAL_FIVE));
}

static void make_worked_states(void)
{
    use_columns(8);
    add_literal(1);
    add_literal(2);
    add_literal(5);
    add_literal(7);
    add_operations();
    expect(arena[GALTHUMIR_ARENA_COUNT] == WORKED_NODES, "galthumir_add_operation", "27 nodes");
    expect_done(ask_new(LIST(0, 0, 2, 4, 5)), "galthumir_new_group");
    memcpy(worked_other, made_group, sizeof made_group);
    expect_done(ask_open(8), "galthumir_open_group");
    expect_done(ask_condition(0, 1), "galthumir_add_equal_conditions");
    expect_done(ask_condition(LITERAL_FIVE, 2), "galthumir_add_equal_conditions");
    expect_done(ask_constant(3, GALTHUMIR_UNKNOWN - 1, 0), "galthumir_add_constant");
    memcpy(worked_arena, arena, sizeof arena);
    memcpy(worked_group, group, sizeof group);
}

void use_worked_states(void)
{
    if (worked_arena[GALTHUMIR_ARENA_COUNT] == 0)
        make_worked_states();
    memcpy(arena, worked_arena, sizeof arena);
    memcpy(group, worked_group, sizeof group);
    memcpy(other_group, worked_other, sizeof worked_other);
}
