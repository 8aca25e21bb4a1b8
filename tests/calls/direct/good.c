#include "good.h"

#include <string.h>

#include "expecting.h"

uint32_t arena[GALTHUMIR_ARENA_CELLS];
uint32_t group[GALTHUMIR_GROUP_CELLS], good_group[GALTHUMIR_GROUP_CELLS];
uint16_t orderings[GALTHUMIR_ORDERINGS_CELLS], good_orderings[GALTHUMIR_ORDERINGS_CELLS];
uint16_t map[GALTHUMIR_MAP_CELLS];

uint32_t numbers[6];
size_t sizes[6];
uint32_t made_group[GALTHUMIR_GROUP_CELLS];
uint16_t made_orderings[GALTHUMIR_ORDERINGS_CELLS];
uint16_t made_ordering[GALTHUMIR_ORDERING_CELLS];
uint32_t projected[4];
uint16_t enumerated[GALTHUMIR_ENUMERATION_OUTPUT];

uint32_t children[2] = {A, B};
uint32_t exprs[2] = {A, FIVE};
uint32_t keys[4] = {A, 0, B, 0};
uint32_t classes[5] = {GALTHUMIR_NO_CONSTANT, 0, 2, A, B};
uint32_t mapping[3] = {A, 1, B};
uint16_t lists[8] = {1, A, 0, 2, B, 1, SUM, 0};
uint8_t group_record[18] = {14, 0, 16, 0, 1, 0, 0, 0, 0, 0, 0, 0, 2, 0, A, 0, B, 0};

static uint32_t good_arena[GALTHUMIR_ARENA_CELLS];
static uint16_t good_map[GALTHUMIR_MAP_CELLS];

static void make_arena(void)
{
    expect_done(galthumir_add_column(arena, 1, 0, numbers), "galthumir_add_column");
    expect_done(galthumir_add_column(arena, 2, 1, numbers), "galthumir_add_column");
    expect_done(galthumir_add_literal(arena, 5, numbers), "galthumir_add_literal");
    expect_done(galthumir_add_operation(arena, 7, children, COUNT_OF(children), numbers), "galthumir_add_operation");
    expect(numbers[0] == SUM, "galthumir_add_operation", "the fourth node");
}

void make_states(void)
{
    make_arena();
    expect_done(galthumir_open_group(GALTHUMIR_MAX_MEMBERS, group), "galthumir_open_group");
    expect_done(galthumir_add_equal_conditions(arena, group, A, B, numbers), "galthumir_add_equal_conditions");
    expect_done(galthumir_add_constant(arena, group, FIVE, GALTHUMIR_KNOWN - 1, 5), "galthumir_add_constant");
    expect_done(galthumir_new_orderings(arena, lists, COUNT_OF(lists), orderings), "galthumir_new_orderings");
    expect_done(galthumir_insert(arena, map, A, 0, A, 0, B, 0), "galthumir_insert");
    expect_done(galthumir_insert(arena, map, B, 0, B, 0, GALTHUMIR_NONE, 0), "galthumir_insert");
    memcpy(good_arena, arena, sizeof arena);
    memcpy(good_group, group, sizeof group);
    memcpy(good_orderings, orderings, sizeof orderings);
    memcpy(good_map, map, sizeof map);
}

void restore_states(void)
{
    memcpy(arena, good_arena, sizeof arena);
    memcpy(group, good_group, sizeof group);
    memcpy(orderings, good_orderings, sizeof orderings);
    memcpy(map, good_map, sizeof map);
}
