#include "dependency_cases.h"

#include <stdbool.h>
#include <stddef.h>
#include <stdint.h>
#include <string.h>

#include "columns.h"
#include "expecting.h"
#include "galthumir.h"
#include "lent.h"

#define STATE GALTHUMIR_REFUSED_STATE
#define NUMBER GALTHUMIR_REFUSED_NUMBER
#define EXPRESSION GALTHUMIR_REFUSED_EXPRESSION
#define SHORT GALTHUMIR_REFUSED_OUTPUT_SHORT
#define LARGE GALTHUMIR_REFUSED_TOO_LARGE
#define NONE GALTHUMIR_NONE
#define PLACES GALTHUMIR_ENUMERATION_OUTPUT

/* How many columns the arena has, and the first expression that it hasn't. */
enum { NODES = 70 };

/* The arena; a map in which key 0 depends on keys 1 and 2 descending, which depend on nothing; both as they are sound. */
static uint32_t cells[GALTHUMIR_ARENA_CELLS], sound_cells[GALTHUMIR_ARENA_CELLS];
static uint16_t map[GALTHUMIR_MAP_CELLS], sound_map[GALTHUMIR_MAP_CELLS];

/* What calls write. */
static uint16_t output[PLACES];
static size_t sizes[2];

/* Keys, expression and options of each. */
struct keys {
    size_t count;
    uint32_t of[34];
};

/* ---- The calls ---- */

struct key {
    uint32_t expr, options;
};

static const struct key NO_KEY = {NONE, 0};

static uint32_t check(void)
{
    return galthumir_check_map(LEND(cells), LEND(map));
}

static uint32_t insert(struct key key, struct key target, struct key dependency)
{
    return galthumir_insert(LEND(cells), LEND(map), key.expr, key.options, target.expr, target.options, dependency.expr,
                            dependency.options);
}

static uint32_t prefixes(struct key key, size_t room)
{
    return galthumir_construct_prefix_orderings(LEND(cells), LEND(map), key.expr, key.options, LEND_BLANK(output), room,
                                                LEND_BLANK(sizes));
}

static uint32_t generate(struct keys keys, size_t room)
{
    return galthumir_generate_dependency_orderings(LEND(cells), LEND(map), LEND(keys.of), keys.count, LEND_BLANK(output),
                                                   room, LEND_BLANK(sizes));
}

/* ---- Maps ---- */

static void empty_map(void)
{
    memset(map, 0, sizeof map);
}

/* Inserts a key that is its own target. */
static void put(struct key key, struct key dependency)
{
    expect_done(insert(key, key, dependency), "galthumir_insert");
}

/* Inserts the keys of the expressions from one to before another, each its own target, with one dependency for all. */
static void put_keys(uint32_t from, uint32_t to, struct key dependency)
{
    for (uint32_t expr = from; expr < to; expr++)
        put((struct key){expr, 0}, dependency);
}

/* A key depends on each expression from one to before another. */
static void put_star(uint32_t on, uint32_t from, uint32_t to)
{
    for (uint32_t expr = from; expr < to; expr++)
        put((struct key){on, 0}, (struct key){expr, 0});
}

/* Each expression from one to before another depends on the next. */
static void put_chain(uint32_t from, uint32_t to)
{
    for (uint32_t expr = from; expr < to; expr++)
        put((struct key){expr, 0}, (struct key){expr + 1, 0});
}

static void make_sound_states(void)
{
    make_columns(cells, NODES);
    empty_map();
    put((struct key){0, 0}, (struct key){1, 0});
    put((struct key){0, 0}, (struct key){2, 1});
    put((struct key){1, 0}, NO_KEY);
    put((struct key){2, 1}, NO_KEY);
    memcpy(sound_cells, cells, sizeof cells);
    memcpy(sound_map, map, sizeof map);
}

static void mend(void)
{
    memcpy(cells, sound_cells, sizeof cells);
    memcpy(map, sound_map, sizeof map);
}

/* One node more is counted than there are. */
static void break_cells(void)
{
    cells[GALTHUMIR_ARENA_COUNT] = NODES + 1;
}

/* The first key counts one dependency more than a key can have. */
static void break_size(void)
{
    map[MAP_NODE(0, SIZE)] = GALTHUMIR_MAX_DEPENDENCIES + 1;
}

/* The last key is of an expression that is not in the arena. */
static void break_key(void)
{
    map[MAP_NODE(2, KEY)] = GALTHUMIR_KEY(NODES, 0);
}

/* ---- What is expected ---- */

/* A call that is done, or refused with this number. */
static void expect_number(uint32_t wanted, uint32_t returned, const char *call, const char *what)
{
    if (wanted == GALTHUMIR_DONE)
        expect_done(returned, call);
    else
        expect_refusal(wanted, returned, call, what);
}

static void expect_prefixes(uint32_t wanted, struct key key, size_t room, const char *what)
{
    expect_number(wanted, prefixes(key, room), "galthumir_construct_prefix_orderings", what);
}

static void expect_generate(uint32_t wanted, struct keys keys, size_t room, const char *what)
{
    expect_number(wanted, generate(keys, room), "galthumir_generate_dependency_orderings", what);
}

/* The check and the insert answer one number, the enumerations another; then both states are mended. */
static void expect_all(uint32_t wanted, uint32_t enumerated, const char *what)
{
    struct key first = {0, 0};
    expect_number(wanted, check(), "galthumir_check_map", what);
    expect_number(wanted, insert(first, first, NO_KEY), "galthumir_insert", what);
    expect_prefixes(enumerated, first, 40, what);
    expect_generate(enumerated, (struct keys){2, {0, 0}}, 40, what);
    mend();
}

static void expect_every(uint32_t wanted, const char *what)
{
    expect_all(wanted, wanted, what);
}

/* ---- Maps that are sound ---- */

static void expect_sound(const char *what)
{
    expect(check() == GALTHUMIR_DONE, "galthumir_check_map", what);
    as_before();
}

static void sound(void)
{
    expect_every(GALTHUMIR_DONE, "sound");
    map[MAP_NODE(1, TARGET)] = GALTHUMIR_KEY(NODES - 1, 3) + 1;
    expect_every(GALTHUMIR_DONE, "a target of the last node");
    map[MAP_NODE(0, SIZE)] = 3;
    expect_every(GALTHUMIR_DONE, "a third dependency, on the key itself, whose number is 0");
    map[MAP_NODE(1, TARGET)] = 0;
    expect_all(GALTHUMIR_DONE, GALTHUMIR_REFUSED_NO_TARGET, "a dependency without target");
    empty_map();
    expect_sound("an empty map");
    memset(cells, 0, sizeof cells);
    expect_sound("an empty map and no nodes");
    mend();
}

/* A key inserted again and again, 64 keys, 16 dependencies. */
static void sound_and_full(void)
{
    struct key key = {1, 2}, other = {1, 0}, last = {63, 3};
    empty_map();
    expect_done(insert(key, (struct key){3, 0}, (struct key){2, 0}), "galthumir_insert");
    expect_done(insert(key, NO_KEY, (struct key){2, 1}), "galthumir_insert");
    expect_done(insert(other, NO_KEY, NO_KEY), "galthumir_insert");
    expect_done(insert(other, (struct key){3, 0}, other), "galthumir_insert");
    expect_sound("a key inserted again");
    empty_map();
    put_keys(0, 63, NO_KEY);
    expect_done(insert(last, (struct key){63, 1}, last), "galthumir_insert");
    expect_done(insert(last, NO_KEY, (struct key){64, 0}), "galthumir_insert");
    expect_sound("64 keys");
    empty_map();
    put_star(0, 1, 17);
    expect_done(insert(other, (struct key){0, 0}, (struct key){17, 0}), "galthumir_insert");
    expect_sound("16 dependencies");
    mend();
}

/* ---- Cells that are no arena, maps that break a rule ---- */

static const struct {
    const char *what;
    size_t cell;
    uint32_t value;
} ARENAS[] = {
    {"a node more is counted than there are", GALTHUMIR_ARENA_COUNT, NODES + 1},
    {"1,025 nodes are counted", GALTHUMIR_ARENA_COUNT, GALTHUMIR_MAX_NODES + 1},
    {"the last cell is used", GALTHUMIR_ARENA_CELLS - 1, 1},
    {"two nodes are the same column", NODE(1, PAYLOAD), 0},
};

static const struct {
    const char *what;
    uint32_t refusal;
    size_t cell;
    uint16_t value;
} MAPS[] = {
    {"65 keys are counted", STATE, GALTHUMIR_MAP_COUNT, GALTHUMIR_MAX_MAP_KEYS + 1},
    {"65,535 keys are counted", STATE, GALTHUMIR_MAP_COUNT, UINT16_MAX},
    {"4 keys of 3 are counted", STATE, GALTHUMIR_MAP_COUNT, 4},
    {"2 keys of 3 are counted", STATE, GALTHUMIR_MAP_COUNT, 2},
    {"a key twice", STATE, MAP_NODE(1, KEY), GALTHUMIR_KEY(0, 0)},
    {"a key twice, apart", STATE, MAP_NODE(2, KEY), GALTHUMIR_KEY(0, 0)},
    {"a dependency twice", STATE, MAP_NODE(0, DEPENDENCIES) + 1, GALTHUMIR_KEY(1, 0)},
    {"size 17", STATE, MAP_NODE(0, SIZE), GALTHUMIR_MAX_DEPENDENCIES + 1},
    {"size 65,535", STATE, MAP_NODE(0, SIZE), UINT16_MAX},
    {"size 1 over two dependencies", STATE, MAP_NODE(0, SIZE), 1},
    {"size 4 over two dependencies", STATE, MAP_NODE(0, SIZE), 4},
    {"a dependency after the last", STATE, MAP_NODE(0, DEPENDENCIES) + 2, GALTHUMIR_KEY(3, 0)},
    {"a dependency at the last place", STATE, MAP_NODE(0, DEPENDENCIES) + 15, 1},
    {"a key after the keys", STATE, MAP_NODE(3, KEY), 1},
    {"a key at the last place", STATE, MAP_NODE(63, KEY), GALTHUMIR_KEY(3, 0)},
    {"a target after the keys", STATE, MAP_NODE(3, TARGET), GALTHUMIR_KEY(0, 0) + 1},
    {"a target at the last place", STATE, MAP_NODE(63, TARGET), GALTHUMIR_KEY(0, 1) + 1},
    {"a size after the keys", STATE, MAP_NODE(63, SIZE), 1},
    {"a dependency after the keys", STATE, MAP_NODE(3, DEPENDENCIES) + 15, 1},
    {"a key of the first expression past the nodes", EXPRESSION, MAP_NODE(2, KEY), GALTHUMIR_KEY(NODES, 0)},
    {"a key of the largest expression", EXPRESSION, MAP_NODE(2, KEY), UINT16_MAX},
    {"an unknown target", EXPRESSION, MAP_NODE(1, TARGET), GALTHUMIR_KEY(NODES, 0) + 1},
    {"an unknown dependency", EXPRESSION, MAP_NODE(0, DEPENDENCIES) + 1, GALTHUMIR_KEY(NODES, 3)},
};

static void broken_states(void)
{
    for (size_t k = 0; k < COUNT_OF(ARENAS); k++) {
        cells[ARENAS[k].cell] = ARENAS[k].value;
        expect_every(STATE, ARENAS[k].what);
    }
    for (size_t k = 0; k < COUNT_OF(MAPS); k++) {
        map[MAPS[k].cell] = MAPS[k].value;
        expect_every(MAPS[k].refusal, MAPS[k].what);
    }
}

/* ---- The order of refusals ---- */

/* Options over 3 are refused with 12, whatever else is wrong; then the states are mended. */
static void expect_twelve(const char *what)
{
    expect_refusal(NUMBER, insert((struct key){0, 0}, (struct key){1, 4}, NO_KEY), "galthumir_insert", what);
    expect_prefixes(NUMBER, (struct key){0, 4}, PLACES, what);
    expect_generate(NUMBER, (struct keys){2, {0, 4}}, PLACES, what);
    mend();
}

static void twelve_first(void)
{
    break_cells();
    expect_twelve("12 before 11: cells that are no arena");
    break_size();
    expect_twelve("12 before 11: 17 dependencies");
    expect_generate(NUMBER, (struct keys){3, {0, 4, 1}}, PLACES, "12 before 11: a key that is cut");
    break_key();
    expect_twelve("12 before 1: an unknown key in the map");
}

/* An unknown expression is refused with 11 where a rule is broken; then the states are mended. */
static void expect_eleven(const char *what)
{
    struct key unknown = {NODES + 1, 0};
    expect_refusal(STATE, check(), "galthumir_check_map", what);
    expect_refusal(STATE, insert(unknown, unknown, unknown), "galthumir_insert", what);
    expect_prefixes(STATE, unknown, PLACES, what);
    expect_generate(STATE, (struct keys){2, {NODES + 1, 0}}, PLACES, what);
    mend();
}

static void eleven_before_one(void)
{
    break_cells();
    expect_eleven("11 before 1: cells that are no arena");
    break_size();
    expect_eleven("11 before 1: 17 dependencies");
    map[MAP_NODE(0, DEPENDENCIES) + 1] = GALTHUMIR_KEY(1, 0);
    break_key();
    expect_eleven("11 before 1: a dependency twice");
    expect_generate(STATE, (struct keys){3, {NODES, 0, 0}}, PLACES, "11 before 1: a key that is cut");
    expect_generate(STATE, (struct keys){1, {0}}, PLACES, "a key that is cut");
    expect_generate(STATE, (struct keys){3, {0, 0, 1}}, PLACES, "the second key is cut");
}

/* Key 5 is not in the map; the output has no places. */
static void before_six(void)
{
    expect_generate(NUMBER, (struct keys){4, {5, 0, 0, 4}}, 0, "12 before 6");
    expect_generate(STATE, (struct keys){3, {5, 0, 0}}, 0, "11 before 6");
    expect_generate(EXPRESSION, (struct keys){4, {5, 0, NODES, 0}}, 0, "1 before 6");
    expect_generate(GALTHUMIR_REFUSED_UNKNOWN_KEY, (struct keys){4, {0, 0, 5, 0}}, 0, "6 before 8");
    expect_prefixes(NUMBER, (struct key){NODES, 4}, 0, "12 before 1 and 8");
    expect_prefixes(EXPRESSION, (struct key){NODES, 0}, 0, "1 before 8");
    expect_prefixes(GALTHUMIR_REFUSED_UNKNOWN_KEY, (struct key){5, 0}, 0, "6 before 8");
    break_size();
    expect_prefixes(STATE, (struct key){5, 0}, 0, "11 before 6");
    mend();
}

/* ---- The room of the output ---- */

/* Whether the output is as it was lent from a place on. */
static bool rest_unchanged(size_t from)
{
    static uint16_t blank[1];
    LEND_BLANK(blank);
    as_before();
    for (size_t k = from; k < PLACES; k++)
        if (output[k] != blank[0])
            return false;
    return true;
}

/* What an enumeration that was done wrote: so many orderings, these numbers, and nothing after them. */
static void expect_written(size_t count, size_t places, const uint16_t *wanted, const char *call)
{
    expect(sizes[0] == count && sizes[1] == places, call, "how many orderings, and how many places");
    expect(memcmp(output, wanted, places * sizeof output[0]) == 0, call, "what is written");
    expect(rest_unchanged(places), call, "output past the last ordering");
}

/* The prefix orderings of a key, in outputs with room for all and for just them; a place less is too short. */
static void expect_room_of_prefixes(struct key key, size_t count, size_t places, const uint16_t *wanted)
{
    size_t rooms[] = {PLACES, places + 1, places};
    for (size_t k = 0; k < COUNT_OF(rooms); k++) {
        expect_prefixes(GALTHUMIR_DONE, key, rooms[k], "done");
        expect_written(count, places, wanted, "galthumir_construct_prefix_orderings");
    }
    expect_prefixes(SHORT, key, places - 1, "a place short");
    expect_prefixes(SHORT, key, 0, "no places");
}

static void expect_room_of_keys(struct keys keys, size_t count, size_t places, const uint16_t *wanted)
{
    size_t rooms[] = {PLACES, places + 1, places};
    for (size_t k = 0; k < COUNT_OF(rooms); k++) {
        expect_generate(GALTHUMIR_DONE, keys, rooms[k], "done");
        expect_written(count, places, wanted, "galthumir_generate_dependency_orderings");
    }
    expect_generate(SHORT, keys, places - 1, "a place short");
    expect_generate(SHORT, keys, 0, "no places");
}

/* What several keys give where there is room for all is what they give in just as many places. */
static void expect_same_in_less_room(struct keys keys, size_t count, size_t places)
{
    static uint16_t wanted[PLACES];
    expect_generate(GALTHUMIR_DONE, keys, PLACES, "done");
    memcpy(wanted, output, sizeof output);
    expect_room_of_keys(keys, count, places, wanted);
}

static void few_orderings(void)
{
    const uint16_t two[] = {1, 1, 0, 1, 2, 1}, one[] = {2, 4, 3, 2, 0}, both[] = {3, 4, 3, 2, 0, 3, 1, 3, 3, 1, 4, 3, 2, 0};
    expect_room_of_prefixes((struct key){0, 0}, 2, COUNT_OF(two), two);
    empty_map();
    put((struct key){0, 0}, (struct key){2, 0});
    put((struct key){1, 0}, (struct key){3, 1});
    put((struct key){2, 0}, (struct key){4, 1});
    put((struct key){3, 1}, NO_KEY);
    expect_done(insert((struct key){4, 1}, (struct key){4, 3}, NO_KEY), "galthumir_insert");
    expect_room_of_prefixes((struct key){0, 0}, 1, COUNT_OF(one), one);
    expect_room_of_keys((struct keys){4, {0, 0, 1, 0}}, 2, COUNT_OF(both), both);
    mend();
}

/* Keys 0 to 5 each depend on one of the keys 10 to 15, which depend on nothing. */
static void orderings_720(void)
{
    empty_map();
    put_keys(10, 16, NO_KEY);
    for (uint32_t expr = 0; expr < 6; expr++)
        put((struct key){expr, 0}, (struct key){10 + expr, 0});
    expect_same_in_less_room((struct keys){12, {0, 0, 1, 0, 2, 0, 3, 0, 4, 0, 5, 0}}, 720, 9360);
    mend();
}

/* Nothing is to be written. */
static void no_orderings(void)
{
    empty_map();
    put((struct key){0, 0}, (struct key){0, 0});
    expect_prefixes(GALTHUMIR_DONE, (struct key){0, 0}, 0, "done");
    expect_written(0, 0, output, "galthumir_construct_prefix_orderings");
    expect_generate(GALTHUMIR_DONE, (struct keys){2, {0, 0}}, 0, "done");
    expect_written(0, 0, output, "galthumir_generate_dependency_orderings");
    expect_generate(GALTHUMIR_DONE, (struct keys){0, {0}}, 0, "done");
    expect_written(0, 0, output, "galthumir_generate_dependency_orderings");
    mend();
}

/* ---- 5, 6 and 7 before 8 ---- */

/* Keys 0 to 16 are a chain down to 17. Keys 20 and 21 depend on three keys each, 22 on 16, 23 on 21 and 22. Keys 40 to 56
 * each depend on key 17. Key 60 leads to 6, key 61 to 7. */
static void make_long_walks(void)
{
    empty_map();
    put_chain(0, 17);
    put((struct key){17, 0}, NO_KEY);
    put_keys(24, 40, NO_KEY);
    put_star(20, 24, 27);
    put_star(21, 27, 30);
    put_star(22, 24, 40);
    put_star(23, 21, 23);
    put_keys(40, 57, (struct key){17, 0});
    put((struct key){60, 0}, (struct key){69, 0});
    put((struct key){61, 0}, (struct key){62, 0});
    expect_done(insert((struct key){62, 0}, NO_KEY, NO_KEY), "galthumir_insert");
}

/* The ordering of the expressions 17 down to 2. */
static void sixteen_keys(uint16_t wanted[33])
{
    wanted[0] = GALTHUMIR_MAX_KEYS;
    for (uint16_t k = 0; k < GALTHUMIR_MAX_KEYS; k++) {
        wanted[1 + 2 * k] = (uint16_t)(17 - k);
        wanted[2 + 2 * k] = 0;
    }
}

static void before_eight(void)
{
    struct keys seventeen = {34, {0}};
    uint16_t wanted[33];
    for (uint32_t k = 0; k < 17; k++)
        seventeen.of[2 * k] = 40 + k;
    make_long_walks();
    expect_prefixes(LARGE, (struct key){0, 0}, 0, "5 before 8: an ordering of 17 keys");
    expect_generate(LARGE, seventeen, 0, "5 before 8: 17 different keys");
    expect_generate(LARGE, (struct keys){6, {20, 0, 21, 0, 23, 0}}, 0, "5 before 8: 1,026 orderings");
    expect_generate(LARGE, (struct keys){2, {0, 0}}, 34, "5 before 8: an ordering of 17 keys");
    expect_prefixes(GALTHUMIR_REFUSED_UNKNOWN_KEY, (struct key){60, 0}, 0, "6 before 8");
    expect_generate(GALTHUMIR_REFUSED_NO_TARGET, (struct keys){4, {20, 0, 61, 0}}, 0, "7 before 8");
    sixteen_keys(wanted);
    expect_room_of_prefixes((struct key){1, 0}, 1, COUNT_OF(wanted), wanted);
    expect_same_in_less_room((struct keys){4, {20, 0, 21, 0}}, 18, 90);
    mend();
}

void dependency_cases(void)
{
    make_sound_states();
    sound();
    sound_and_full();
    broken_states();
    twelve_first();
    eleven_before_one();
    before_six();
    few_orderings();
    orderings_720();
    no_orderings();
    before_eight();
}
