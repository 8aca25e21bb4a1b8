#include "lent_arenas.h"

#include <stddef.h>
#include <stdint.h>
#include <string.h>

#include "asking.h"
#include "every_call.h"
#include "expecting.h"
#include "galthumir.h"
#include "good.h"
#include "lent.h"
#include "worked.h"

#define STATE GALTHUMIR_REFUSED_STATE
#define CELL(expr, part) (GALTHUMIR_ARENA_NODES + GALTHUMIR_NODE_CELLS * (expr) + GALTHUMIR_NODE_##part)

/* ---- Five nodes, of which one cell is another ---- */

struct broken_cell {
    const char *how;
    size_t cell;
    uint32_t value;
};

/* Columns 0 and 1, literal 2, and operations 3 and 4 over the first column and another node. */
static const struct broken_cell CELLS[] = {
    {"1,025 nodes counted", GALTHUMIR_ARENA_COUNT, 1025},
    {"4,294,967,295 nodes counted", GALTHUMIR_ARENA_COUNT, 4294967295},
    {"one node less counted", GALTHUMIR_ARENA_COUNT, 4},
    {"one node more counted", GALTHUMIR_ARENA_COUNT, 6},
    {"a cell just past the nodes", CELL(5, KIND), 1},
    {"the last cell", GALTHUMIR_ARENA_CELLS - 1, 1},
    {"an operation of kind 0", CELL(3, KIND), 0},
    {"an operation of kind 4", CELL(3, KIND), 4},
    {"nine children", CELL(3, CHILD_COUNT), 9},
    {"a child that is its parent", CELL(3, CHILDREN), 3},
    {"a child above its parent", CELL(3, CHILDREN) + 1, 4},
    {"an unused place", CELL(3, CHILDREN) + 2, 1},
    {"the last unused place", CELL(3, CHILDREN) + 7, 1},
    {"fewer children than places used", CELL(3, CHILD_COUNT), 1},
    {"a column of kind 0", CELL(0, KIND), 0},
    {"a column with a child", CELL(1, CHILD_COUNT), 1},
    {"a column with a place used", CELL(0, CHILDREN), 1},
    {"a literal with a child", CELL(2, CHILD_COUNT), 1},
    {"a literal with a place used", CELL(2, CHILDREN) + 7, 1},
    {"two equal columns", CELL(2, KIND), GALTHUMIR_COLUMN},
    {"two equal literals", CELL(1, KIND), GALTHUMIR_LITERAL},
    {"two equal operations", CELL(4, CHILDREN) + 1, 1},
};

static uint32_t five_nodes[GALTHUMIR_ARENA_CELLS];

static void make_five_nodes(void)
{
    memset(arena, 0, sizeof arena);
    expect_done(galthumir_add_column(arena, 0, 0, numbers), "galthumir_add_column");
    expect_done(galthumir_add_column(arena, 0, 7, numbers), "galthumir_add_column");
    expect_done(galthumir_add_literal(arena, 7, numbers), "galthumir_add_literal");
    expect_done(ask_operation(1, LIST(0, 1)), "galthumir_add_operation");
    expect_done(ask_operation(1, LIST(0, 2)), "galthumir_add_operation");
    memcpy(five_nodes, arena, sizeof arena);
}

/* The states that keep every rule, over the five nodes. */
static void use_five_nodes(void)
{
    restore_states();
    memcpy(arena, five_nodes, sizeof arena);
}

/* Two equal nodes, and a call that would be refused in an arena too: 11 comes first. */
static void before_other_refusals(void)
{
    use_five_nodes();
    arena[CELL(1, PAYLOAD)] = 0;
    expect_refusal(STATE, galthumir_check_arena(LEND(arena)), "galthumir_check_arena", "two equal nodes");
    expect_refusal(STATE, ask_operation(1, LIST(5)), "galthumir_add_operation", "11 before 1");
    expect_refusal(STATE, ask_operation(1, LIST(0, 0, 0, 0, 0, 0, 0, 0, 0)), "galthumir_add_operation", "11 before 2");
    expect_refusal(STATE, ask_node(5), "galthumir_read_node", "11 before 1");
    expect_refusal(STATE, ask_child(5, 0), "galthumir_read_child", "11 before 1");
    expect_refusal(STATE, ask_shift(5, 1), "galthumir_add_offset_to_expr", "11 before 1");
    expect_refusal(STATE, ask_shift(0, -1), "galthumir_add_offset_to_expr", "11 before 10");
    expect_refusal(STATE, ask_shift(3, INT64_MAX), "galthumir_add_offset_to_expr", "11 before 10");
    arena[CELL(1, PAYLOAD)] = 7;
    expect_done(galthumir_check_arena(LEND(arena)), "galthumir_check_arena");
}

void all_calls_with_lent_arenas(void)
{
    make_five_nodes();
    for (size_t k = 0; k < CALLS_COUNT; k++) {
        use_five_nodes();
        expect_done(CALLS[k].make(), CALLS[k].name);
        use_five_nodes();
        for (size_t at = 0; at < COUNT_OF(CELLS); at++) {
            uint32_t before = arena[CELLS[at].cell];
            arena[CELLS[at].cell] = CELLS[at].value;
            expect_refusal(STATE, CALLS[k].make(), CALLS[k].name, CELLS[at].how);
            arena[CELLS[at].cell] = before;
        }
    }
    before_other_refusals();
    restore_states();
}

/* ---- A full arena ---- */

static void one_node_more(void)
{
    arena[GALTHUMIR_ARENA_COUNT] = GALTHUMIR_MAX_NODES + 1;
    for (size_t k = 0; k < CALLS_COUNT; k++)
        if (CALLS[k].lent == ONLY_ARENA)
            expect_refusal(STATE, CALLS[k].make(), CALLS[k].name, "1,025 nodes counted over 1,024");
    arena[GALTHUMIR_ARENA_COUNT] = GALTHUMIR_MAX_NODES;
    expect_done(galthumir_check_arena(LEND(arena)), "galthumir_check_arena");
}

void full_arenas(void)
{
    uint32_t last[] = {GALTHUMIR_COLUMN, 0, 1023};
    use_columns(GALTHUMIR_MAX_NODES);
    expect_done(galthumir_check_arena(LEND(arena)), "galthumir_check_arena");
    expect_done(ask_node(1023), "galthumir_read_node");
    expect(same_numbers(numbers, last, COUNT_OF(last)), "galthumir_read_node", "the last of 1,024 nodes");
    expect_refusal(GALTHUMIR_REFUSED_EXPRESSION, ask_node(1024), "galthumir_read_node", "1,024 of 1,024 nodes");
    one_node_more();
    restore_states();
}

/* ---- Nodes and their cells ---- */

static void expect_node_by_its_cells(uint32_t expr)
{
    const uint32_t *node = arena + CELL(expr, KIND);
    uint32_t payload = node[GALTHUMIR_NODE_PAYLOAD];
    uint32_t wanted[] = {node[GALTHUMIR_NODE_KIND], payload, node[GALTHUMIR_NODE_CHILD_COUNT]};
    if (wanted[0] == GALTHUMIR_COLUMN) {
        wanted[1] = payload / 65536;
        wanted[2] = payload % 65536;
    }
    expect_done(ask_node(expr), "galthumir_read_node");
    expect(same_numbers(numbers, wanted, COUNT_OF(wanted)), "galthumir_read_node", "a node by its cells");
}

static void expect_child_by_its_cell(uint32_t expr, uint32_t place)
{
    const uint32_t *node = arena + CELL(expr, KIND);
    uint32_t wanted[] = {0, 0};
    if (place < node[GALTHUMIR_NODE_CHILD_COUNT]) {
        wanted[0] = 1;
        wanted[1] = node[GALTHUMIR_NODE_CHILDREN + place];
    }
    expect_done(ask_child(expr, place), "galthumir_read_child");
    expect(same_numbers(numbers, wanted, COUNT_OF(wanted)), "galthumir_read_child", "a child by its cell");
}

void nodes_by_their_cells(void)
{
    use_worked_states();
    expect_done(ask_operation(458755, LIST(1, 0, 1, 0, 1, 0, 1, 0)), "galthumir_add_operation");
    for (uint32_t expr = 0; expr <= WORKED_NODES; expr++) {
        expect_node_by_its_cells(expr);
        for (uint32_t place = 0; place <= GALTHUMIR_MAX_CHILDREN; place++)
            expect_child_by_its_cell(expr, place);
        expect_child_by_its_cell(expr, UINT32_MAX);
    }
    expect_refusal(GALTHUMIR_REFUSED_EXPRESSION, ask_node(28), "galthumir_read_node", "28 of 28 nodes");
    expect_refusal(GALTHUMIR_REFUSED_EXPRESSION, ask_node(UINT32_MAX), "galthumir_read_node", "4,294,967,295");
    expect_refusal(GALTHUMIR_REFUSED_EXPRESSION, ask_child(28, 0), "galthumir_read_child", "28 of 28 nodes");
    restore_states();
}
