#include "broken.h"

#include <stddef.h>
#include <stdint.h>

#include "columns.h"
#include "every_call.h"
#include "expecting.h"
#include "galthumir.h"
#include "good.h"

/* A state that is broken by what is put into one cell or two. */
struct broken {
    const char *how;
    uint32_t refusal;
    struct {
        size_t cell;
        uint32_t value;
    } put[2];
};

#define ONCE(cell, value) {{cell, value}, {cell, value}}

#define STATE GALTHUMIR_REFUSED_STATE
#define NUMBER GALTHUMIR_REFUSED_NUMBER
#define EXPRESSION GALTHUMIR_REFUSED_EXPRESSION

static const struct broken ARENAS[] = {
    {"1,025 nodes", STATE, ONCE(GALTHUMIR_ARENA_COUNT, GALTHUMIR_MAX_NODES + 1)},
    {"a node of no kind", STATE, ONCE(NODE(A, KIND), 0)},
    {"a node of kind 4", STATE, ONCE(NODE(A, KIND), 4)},
    {"a child that is its parent", STATE, ONCE(NODE(SUM, CHILDREN), SUM)},
    {"two equal nodes", STATE, ONCE(NODE(B, PAYLOAD), 1 << 16)},
    {"nine children", STATE, ONCE(NODE(SUM, CHILD_COUNT), GALTHUMIR_MAX_CHILDREN + 1)},
    {"a column with a child", STATE, {{NODE(B, CHILD_COUNT), 1}, {NODE(B, CHILDREN), A}}},
    {"a literal with a child", STATE, {{NODE(FIVE, CHILD_COUNT), 1}, {NODE(FIVE, CHILDREN), A}}},
    {"an unused place of a child", STATE, ONCE(NODE(SUM, CHILDREN) + 2, 1)},
    {"an unused node", STATE, ONCE(NODE(SUM + 1, PAYLOAD), 1)},
    {"the last cell", STATE, ONCE(GALTHUMIR_ARENA_CELLS - 1, 1)},
};

static const struct broken GROUPS[] = {
    {"limit 0", NUMBER, ONCE(GALTHUMIR_GROUP_LIMIT, 0)},
    {"limit 257", NUMBER, ONCE(GALTHUMIR_GROUP_LIMIT, GALTHUMIR_MAX_MEMBERS + 1)},
    {"flavour 4", NUMBER, ONCE(GALTHUMIR_GROUP_FLAVOURS, GALTHUMIR_KNOWN + 1)},
    {"a value where none is known", NUMBER, ONCE(GALTHUMIR_GROUP_VALUES, 1)},
    {"65 classes", STATE, ONCE(GALTHUMIR_GROUP_COUNT, GALTHUMIR_MAX_CLASSES + 1)},
    {"more members than the limit", STATE, ONCE(GALTHUMIR_GROUP_LIMIT, 2)},
    {"sizes that are not the members", STATE, ONCE(GALTHUMIR_GROUP_SIZES, 1)},
    {"an empty class", STATE, {{GALTHUMIR_GROUP_SIZES, 0}, {GALTHUMIR_GROUP_SIZES + 1, 3}}},
    {"an expression twice in a class", STATE, ONCE(GALTHUMIR_GROUP_MEMBERS + 1, A)},
    {"an expression in two classes", STATE, ONCE(GALTHUMIR_GROUP_MEMBERS + 2, A)},
    {"a literal's class that is not uniform", STATE,
     {{GALTHUMIR_GROUP_FLAVOURS + 1, GALTHUMIR_HETEROGENEOUS}, {GALTHUMIR_GROUP_VALUES + 1, 0}}},
    {"an unused size", STATE, ONCE(GALTHUMIR_GROUP_SIZES + 2, 1)},
    {"an unused flavour", STATE, ONCE(GALTHUMIR_GROUP_FLAVOURS + 2, GALTHUMIR_UNKNOWN)},
    {"an unused place of a member", STATE, ONCE(GALTHUMIR_GROUP_CELLS - 1, 1)},
    {"an unknown member", EXPRESSION, ONCE(GALTHUMIR_GROUP_MEMBERS, UNKNOWN_EXPR)},
};

static const struct broken ORDERING_LISTS[] = {
    {"33 orderings", STATE, ONCE(GALTHUMIR_ORDERINGS_COUNT, GALTHUMIR_MAX_ORDERINGS + 1)},
    {"an empty ordering", STATE, ONCE(GALTHUMIR_ORDERINGS_COUNT, 3)},
    {"17 keys", STATE, ONCE(ORDERING(0), GALTHUMIR_MAX_KEYS + 1)},
    {"an expression twice", STATE, ONCE(ORDERING(1) + 2, GALTHUMIR_KEY(B, 0))},
    {"an unused place of a key", STATE, ONCE(ORDERING(0) + 2, 1)},
    {"an unused ordering", STATE, {{ORDERING(2), 1}, {ORDERING(2) + 1, GALTHUMIR_KEY(B, 0)}}},
    {"the last cell", STATE, ONCE(GALTHUMIR_ORDERINGS_CELLS - 1, 1)},
    {"an unknown key", EXPRESSION, ONCE(ORDERING(0) + 1, GALTHUMIR_KEY(UNKNOWN_EXPR, 0))},
};

static const struct broken MAPS[] = {
    {"65 keys", STATE, ONCE(GALTHUMIR_MAP_COUNT, GALTHUMIR_MAX_MAP_KEYS + 1)},
    {"17 dependencies", STATE, ONCE(MAP_NODE(0, SIZE), GALTHUMIR_MAX_DEPENDENCIES + 1)},
    {"a key twice", STATE, ONCE(MAP_NODE(1, KEY), GALTHUMIR_KEY(A, 0))},
    {"a dependency twice", STATE, {{MAP_NODE(0, SIZE), 2}, {MAP_NODE(0, DEPENDENCIES) + 1, GALTHUMIR_KEY(B, 0)}}},
    {"an unused place of a dependency", STATE, ONCE(MAP_NODE(0, DEPENDENCIES) + 1, 1)},
    {"an unused node", STATE, ONCE(MAP_NODE(2, KEY), 1)},
    {"the last cell", STATE, ONCE(GALTHUMIR_MAP_CELLS - 1, 1)},
    {"an unknown key", EXPRESSION, ONCE(MAP_NODE(1, KEY), GALTHUMIR_KEY(UNKNOWN_EXPR, 0))},
    {"an unknown target", EXPRESSION, ONCE(MAP_NODE(1, TARGET), GALTHUMIR_KEY(UNKNOWN_EXPR, 0) + 1)},
    {"an unknown dependency", EXPRESSION, ONCE(MAP_NODE(0, DEPENDENCIES), GALTHUMIR_KEY(UNKNOWN_EXPR, 0))},
};

/* The states that a call can be lent: their cells, how wide one is, and the ways to break them. */
struct state {
    void *cells;
    size_t width;
    const struct broken *ways;
    size_t ways_count;
};

#define STATE_OF(cells, ways) {cells, sizeof(cells)[0], ways, COUNT_OF(ways)}

static const struct state STATES[] = {
    [ONLY_ARENA] = STATE_OF(arena, ARENAS),
    [GROUP] = STATE_OF(group, GROUPS),
    [ORDERINGS] = STATE_OF(orderings, ORDERING_LISTS),
    [MAP] = STATE_OF(map, MAPS),
};

/* Puts a value into a cell, and answers what was there. */
static uint32_t exchange(const struct state *state, size_t cell, uint32_t value)
{
    uint16_t *narrow = state->cells;
    uint32_t *wide = state->cells, before;
    if (state->width == sizeof *narrow) {
        before = narrow[cell];
        narrow[cell] = (uint16_t)value;
    } else {
        before = wide[cell];
        wide[cell] = value;
    }
    return before;
}

/* Breaks a state in one way, makes the call, and mends the state. */
static void with_broken(const struct state *state, const struct broken *broken, const struct call *call)
{
    uint32_t first = exchange(state, broken->put[0].cell, broken->put[0].value);
    uint32_t second = exchange(state, broken->put[1].cell, broken->put[1].value);
    expect_refusal(broken->refusal, call->make(), call->name, broken->how);
    exchange(state, broken->put[1].cell, second);
    exchange(state, broken->put[0].cell, first);
}

static void with_broken_in_each_way(enum lent lent, const struct call *call)
{
    for (size_t k = 0; k < STATES[lent].ways_count; k++)
        with_broken(&STATES[lent], &STATES[lent].ways[k], call);
}

/* A list that ends within one of its things. */
static void with_cut_list(const struct call *call)
{
    cut = 1;
    expect_refusal(STATE, call->make(), call->name, "a list that is cut");
    cut = 0;
}

void all_calls_with_broken_states(void)
{
    for (size_t k = 0; k < CALLS_COUNT; k++) {
        with_broken_in_each_way(ONLY_ARENA, &CALLS[k]);
        if (CALLS[k].lent != ONLY_ARENA)
            with_broken_in_each_way(CALLS[k].lent, &CALLS[k]);
        if (CALLS[k].has_list)
            with_cut_list(&CALLS[k]);
    }
}

void all_calls_with_good_states(void)
{
    for (size_t k = 0; k < CALLS_COUNT; k++) {
        expect_done(CALLS[k].make(), CALLS[k].name);
        restore_states();
    }
}
