#include "ordering_cases.h"

#include <stddef.h>
#include <stdint.h>
#include <string.h>

#include "columns.h"
#include "expecting.h"
#include "galthumir.h"
#include "lent.h"

#define STATE GALTHUMIR_REFUSED_STATE
#define NUMBER GALTHUMIR_REFUSED_NUMBER
#define EXPRESSION GALTHUMIR_REFUSED_EXPRESSION

/* The nodes: columns 0 to 32, a literal, two operations, a column of the largest index. */
enum { LITERAL = 33, PAIR, SINGLE, LAST, NODES };

/* The arena, the list [0/0 1/1] [2/3], a list of 32 orderings of one key each, and none; the first two as they are sound. */
static uint32_t cells[GALTHUMIR_ARENA_CELLS], sound_cells[GALTHUMIR_ARENA_CELLS];
static uint16_t list[GALTHUMIR_ORDERINGS_CELLS], sound_list[GALTHUMIR_ORDERINGS_CELLS];
static uint16_t most[GALTHUMIR_ORDERINGS_CELLS], none[GALTHUMIR_ORDERINGS_CELLS];

/* What calls write. */
static uint16_t made[GALTHUMIR_ORDERINGS_CELLS], joined[GALTHUMIR_ORDERING_CELLS];
static uint32_t answer[2];

/* Lists of keys, as numbers. */
struct numbers {
    size_t count;
    uint16_t of[36];
};

static struct numbers first_key = {3, {1, 0, 0}};

/* ---- States ---- */

static void make_cells(void)
{
    uint32_t both[] = {0, 1}, one[] = {LITERAL};
    make_columns(cells, LITERAL);
    expect_done(galthumir_add_literal(cells, 5, answer), "galthumir_add_literal");
    expect_done(galthumir_add_operation(cells, 1, both, COUNT_OF(both), answer), "galthumir_add_operation");
    expect_done(galthumir_add_operation(cells, 2, one, COUNT_OF(one), answer), "galthumir_add_operation");
    expect_done(galthumir_add_column(cells, 1, 65535, answer), "galthumir_add_column");
    expect(answer[0] == LAST, "galthumir_add_column", "the last node");
}

static void make_lists(void)
{
    uint16_t numbers[] = {2, 0, 0, 1, 1, 1, 2, 3}, singles[3 * GALTHUMIR_MAX_ORDERINGS];
    for (uint16_t k = 0; k < GALTHUMIR_MAX_ORDERINGS; k++) {
        singles[3 * k] = 1;
        singles[3 * k + 1] = k;
        singles[3 * k + 2] = 0;
    }
    expect_done(galthumir_new_orderings(cells, numbers, COUNT_OF(numbers), list), "galthumir_new_orderings");
    expect_done(galthumir_new_orderings(cells, singles, COUNT_OF(singles), most), "galthumir_new_orderings");
}

static void keep(void)
{
    memcpy(sound_cells, cells, sizeof cells);
    memcpy(sound_list, list, sizeof list);
}

static void mend(void)
{
    memcpy(cells, sound_cells, sizeof cells);
    memcpy(list, sound_list, sizeof list);
}

/* A key of the first ordering of a list. */
static void put_key(uint16_t *orderings, size_t place, uint16_t key)
{
    orderings[ORDERING(0) + 1 + place] = key;
}

/* One node more is counted than there are. */
static void break_cells(void)
{
    cells[GALTHUMIR_ARENA_COUNT] = NODES + 1;
}

/* One ordering more is counted than a list can have. */
static void break_count(uint16_t *orderings)
{
    orderings[GALTHUMIR_ORDERINGS_COUNT] = GALTHUMIR_MAX_ORDERINGS + 1;
}

/* The first ordering has no key. */
static void break_size(uint16_t *orderings)
{
    orderings[ORDERING(0)] = 0;
}

/* A key of the first ordering is of an expression that is not in the arena. */
static void break_key(uint16_t *orderings, size_t place)
{
    put_key(orderings, place, GALTHUMIR_KEY(NODES, 3));
}

/* ---- Every call on the list ---- */

static uint32_t check(void)
{
    return galthumir_check_orderings(LEND(cells), LEND(list));
}

static uint32_t output(void)
{
    return galthumir_output_ordering(LEND(cells), LEND(list), LEND_BLANK(joined));
}

static uint32_t options_of(uint32_t expr)
{
    return galthumir_get_options(LEND(cells), LEND(list), expr, LEND_BLANK(answer));
}

static uint32_t options(void)
{
    return options_of(0);
}

static uint32_t partial_of(uint32_t expr)
{
    return galthumir_is_expr_partial_const(LEND(cells), LEND(list), expr, LEND_BLANK(answer));
}

static uint32_t partial(void)
{
    return partial_of(0);
}

static uint32_t clear(void)
{
    return galthumir_clear_orderings(LEND(cells), LEND(list));
}

static uint32_t add_numbers(struct numbers *numbers)
{
    return galthumir_add_orderings(LEND(cells), LEND(list), LEND(numbers->of), numbers->count);
}

static uint32_t add(void)
{
    return add_numbers(&first_key);
}

static uint32_t extend_numbers(struct numbers *numbers)
{
    return galthumir_extend_orderings(LEND(cells), LEND(list), LEND(numbers->of), numbers->count);
}

static uint32_t extend(void)
{
    return extend_numbers(&first_key);
}

static uint32_t join_lists(uint16_t *left, uint16_t *right)
{
    return galthumir_join_suffix(LEND(cells), lend(left, sizeof list), lend(right, sizeof list), LEND_BLANK(made));
}

static uint32_t join(void)
{
    return join_lists(list, none);
}

static uint32_t join_to_none(void)
{
    return join_lists(none, list);
}

static uint32_t shift_by(int64_t offset)
{
    return galthumir_add_offset(LEND(cells), LEND(list), offset);
}

static uint32_t shift(void)
{
    return shift_by(0);
}

static uint32_t new_list(struct numbers *numbers)
{
    return galthumir_new_orderings(LEND(cells), LEND(numbers->of), numbers->count, LEND_BLANK(made));
}

/* Each call that is lent a list, and what it answers where the arena has no nodes and the list no orderings. */
static const struct {
    uint32_t (*make)(void);
    uint32_t without_nodes;
    const char *name;
} EVERY[] = {
    {check, GALTHUMIR_DONE, "galthumir_check_orderings"},
    {output, GALTHUMIR_DONE, "galthumir_output_ordering"},
    {options, EXPRESSION, "galthumir_get_options"},
    {partial, EXPRESSION, "galthumir_is_expr_partial_const"},
    {clear, GALTHUMIR_DONE, "galthumir_clear_orderings"},
    {add, EXPRESSION, "galthumir_add_orderings"},
    {extend, EXPRESSION, "galthumir_extend_orderings"},
    {join, GALTHUMIR_DONE, "galthumir_join_suffix, first"},
    {join_to_none, GALTHUMIR_DONE, "galthumir_join_suffix, second"},
    {shift, GALTHUMIR_DONE, "galthumir_add_offset"},
};

/* A call that is done, or refused with this number. */
static void expect_number(uint32_t wanted, uint32_t returned, const char *call, const char *what)
{
    if (wanted == GALTHUMIR_DONE)
        expect_done(returned, call);
    else
        expect_refusal(wanted, returned, call, what);
}

/* Every call answers this number, on the list and the cells as they are; then both are mended. */
static void expect_every(uint32_t wanted, const char *what)
{
    static uint32_t cells_now[GALTHUMIR_ARENA_CELLS];
    static uint16_t list_now[GALTHUMIR_ORDERINGS_CELLS];
    memcpy(cells_now, cells, sizeof cells);
    memcpy(list_now, list, sizeof list);
    for (size_t k = 0; k < COUNT_OF(EVERY); k++) {
        expect_number(wanted, EVERY[k].make(), EVERY[k].name, what);
        memcpy(cells, cells_now, sizeof cells);
        memcpy(list, list_now, sizeof list);
    }
    mend();
}

/* The three calls that are lent lists of keys refuse these. */
static void expect_three(uint32_t wanted, struct numbers numbers, const char *what)
{
    expect_refusal(wanted, new_list(&numbers), "galthumir_new_orderings", what);
    expect_refusal(wanted, add_numbers(&numbers), "galthumir_add_orderings", what);
    expect_refusal(wanted, extend_numbers(&numbers), "galthumir_extend_orderings", what);
}

/* The two calls that change a list refuse these. */
static void expect_two(uint32_t wanted, struct numbers to_add, struct numbers to_extend_by, const char *what)
{
    expect_refusal(wanted, add_numbers(&to_add), "galthumir_add_orderings", what);
    expect_refusal(wanted, extend_numbers(&to_extend_by), "galthumir_extend_orderings", what);
}

/* ---- What is sound ---- */

static void sound(void)
{
    expect_every(GALTHUMIR_DONE, "sound");
    put_key(list, 1, GALTHUMIR_KEY(LAST, 3));
    expect_every(GALTHUMIR_DONE, "a key of the last node");
    expect_done(clear(), "galthumir_clear_orderings");
    expect(memcmp(list, none, sizeof list) == 0, "galthumir_clear_orderings", "no ordering is left");
    expect_done(check(), "galthumir_check_orderings");
    mend();
}

static void without_nodes(void)
{
    memset(cells, 0, sizeof cells);
    memset(list, 0, sizeof list);
    for (size_t k = 0; k < COUNT_OF(EVERY); k++)
        expect_number(EVERY[k].without_nodes, EVERY[k].make(), EVERY[k].name, "no nodes");
    expect(memcmp(list, none, sizeof list) == 0, "galthumir_add_offset", "no ordering comes of none");
    mend();
}

/* ---- Cells that are no arena, lists that break a rule ---- */

static const struct {
    const char *what;
    size_t cell;
    uint32_t value;
} ARENAS[] = {
    {"a node more is counted than there are", GALTHUMIR_ARENA_COUNT, NODES + 1},
    {"1,025 nodes are counted", GALTHUMIR_ARENA_COUNT, GALTHUMIR_MAX_NODES + 1},
    {"the last cell is used", GALTHUMIR_ARENA_CELLS - 1, 1},
    {"an operation is its own child", NODE(PAIR, CHILDREN), PAIR},
    {"two nodes are the same column", NODE(1, PAYLOAD), 0},
};

static void broken_arenas(void)
{
    for (size_t k = 0; k < COUNT_OF(ARENAS); k++) {
        cells[ARENAS[k].cell] = ARENAS[k].value;
        expect_refusal(STATE, new_list(&first_key), "galthumir_new_orderings", ARENAS[k].what);
        expect_every(STATE, ARENAS[k].what);
    }
}

static const struct {
    const char *what;
    uint32_t refusal;
    size_t cell;
    uint16_t value;
} LISTS[] = {
    {"33 orderings are counted", STATE, GALTHUMIR_ORDERINGS_COUNT, GALTHUMIR_MAX_ORDERINGS + 1},
    {"65,535 orderings are counted", STATE, GALTHUMIR_ORDERINGS_COUNT, UINT16_MAX},
    {"3 orderings of 2 are counted", STATE, GALTHUMIR_ORDERINGS_COUNT, 3},
    {"1 ordering of 2 is counted", STATE, GALTHUMIR_ORDERINGS_COUNT, 1},
    {"size 0 over two keys", STATE, ORDERING(0), 0},
    {"size 17", STATE, ORDERING(0), GALTHUMIR_MAX_KEYS + 1},
    {"size 65,535", STATE, ORDERING(0), UINT16_MAX},
    {"size 1 over two keys", STATE, ORDERING(0), 1},
    {"an expression twice", STATE, ORDERING(0) + 2, GALTHUMIR_KEY(0, 0)},
    {"an expression twice, with other options", STATE, ORDERING(0) + 2, GALTHUMIR_KEY(0, 3)},
    {"a key after the last", STATE, ORDERING(0) + 3, GALTHUMIR_KEY(3, 0)},
    {"a key at the last place", STATE, ORDERING(0) + 16, 1},
    {"a size after the orderings", STATE, ORDERING(31), 1},
    {"a key after the orderings", STATE, ORDERING(2) + 16, 1},
    {"a key of the first expression past the nodes", EXPRESSION, ORDERING(0) + 2, GALTHUMIR_KEY(NODES, 3)},
    {"a key of the largest expression", EXPRESSION, ORDERING(0) + 1, UINT16_MAX},
};

static void broken_lists(void)
{
    for (size_t k = 0; k < COUNT_OF(LISTS); k++) {
        list[LISTS[k].cell] = LISTS[k].value;
        expect_every(LISTS[k].refusal, LISTS[k].what);
    }
    break_size(list);
    put_key(list, 1, 0);
    expect_every(STATE, "an ordering without keys");
}

/* ---- Lists of keys whose count runs past the end ---- */

static void cut_lists(void)
{
    expect_three(STATE, (struct numbers){1, {1}}, "cut after the count");
    expect_three(STATE, (struct numbers){2, {1, 3}}, "cut after an expression");
    expect_three(STATE, (struct numbers){3, {2, 3, 0}}, "cut after a key");
    expect_three(STATE, (struct numbers){7, {1, 3, 0, 2, 4, 0, 5}}, "cut in the second list");
    expect_three(STATE, (struct numbers){2, {0, UINT16_MAX}}, "the largest count");
}

/* ---- The order of refusals ---- */

static void twelve_before_eleven(void)
{
    struct numbers options_4 = {3, {1, 0, 4}};
    break_cells();
    expect_three(NUMBER, options_4, "12 before 11: cells that are no arena");
    mend();
    break_count(list);
    expect_two(NUMBER, options_4, options_4, "12 before 11: 33 orderings");
    mend();
    expect_three(NUMBER, (struct numbers){4, {2, 3, 4, 4}}, "12 before 11: cut after an expression");
    expect_three(NUMBER, (struct numbers){6, {1, 3, 0, 5, 4, 4}}, "12 before 11: cut in the second list");
    break_key(list, 1);
    expect_two(NUMBER, options_4, options_4, "12 before 1: an unknown key in the list");
    mend();
}

static void eleven_before_one(void)
{
    struct numbers unknown = {3, {1, NODES + 1, 0}}, unknown_and_cut = {4, {1, NODES, 0, 1}};
    break_cells();
    expect_three(STATE, unknown, "11 before 1: cells that are no arena");
    expect_refusal(STATE, options_of(NODES + 1), "galthumir_get_options", "11 before 1: cells that are no arena");
    expect_refusal(STATE, partial_of(NODES + 1), "galthumir_is_expr_partial_const", "11 before 1: cells that are no arena");
    break_key(list, 1);
    expect_every(STATE, "11 before 1: an unknown key, cells that are no arena");
    expect_three(STATE, unknown_and_cut, "11 before 1: a list that is cut");
    break_key(list, 1);
    expect_two(STATE, (struct numbers){1, {1}}, (struct numbers){1, {0}}, "11 before 1: an unknown key in the list");
    break_count(list);
    expect_every(STATE, "11 before 1: an unknown key, 33 orderings");
    break_count(list);
    expect_refusal(STATE, options_of(NODES), "galthumir_get_options", "11 before 1: 33 orderings");
    expect_refusal(STATE, partial_of(NODES), "galthumir_is_expr_partial_const", "11 before 1: 33 orderings");
    mend();
}

/* A join of the two lists, one with an unknown key and one with an ordering without keys. */
static void eleven_before_one_in_joins(void)
{
    static uint16_t other[GALTHUMIR_ORDERINGS_CELLS];
    memcpy(other, list, sizeof list);
    break_size(other);
    break_key(list, 1);
    expect_refusal(STATE, join_lists(list, other), "galthumir_join_suffix", "11 before 1: the second list");
    expect_refusal(STATE, join_lists(other, list), "galthumir_join_suffix", "11 before 1: the first list");
    mend();
}

static void eleven_before_ten_and_five(void)
{
    static uint16_t broken_most[GALTHUMIR_ORDERINGS_CELLS];
    break_count(list);
    expect_refusal(STATE, shift_by(-1), "galthumir_add_offset", "11 before 10: 33 orderings");
    mend();
    put_key(list, 1, GALTHUMIR_KEY(0, 3));
    expect_refusal(STATE, shift_by(-1), "galthumir_add_offset", "11 before 10: an expression twice");
    mend();
    break_size(list);
    expect_refusal(STATE, join_lists(most, list), "galthumir_join_suffix", "11 before 5: an ordering without keys");
    mend();
    memcpy(broken_most, most, sizeof most);
    break_count(broken_most);
    expect_refusal(STATE, join_lists(broken_most, list), "galthumir_join_suffix", "11 before 5: 33 orderings");
    memcpy(list, most, sizeof list);
    struct numbers cut = {4, {1, 32, 0, 1}};
    expect_refusal(STATE, add_numbers(&cut), "galthumir_add_orderings", "11 before 5: a list that is cut");
    mend();
}

static void one_before_ten_and_five(void)
{
    static uint16_t strange_most[GALTHUMIR_ORDERINGS_CELLS];
    break_key(list, 1);
    expect_refusal(EXPRESSION, shift_by(-1), "galthumir_add_offset", "1 before 10: an unknown key");
    expect_refusal(EXPRESSION, join_lists(most, list), "galthumir_join_suffix", "1 before 5: an unknown key, second");
    mend();
    memcpy(strange_most, most, sizeof most);
    break_key(strange_most, 0);
    expect_refusal(EXPRESSION, join_lists(strange_most, list), "galthumir_join_suffix", "1 before 5: an unknown key, first");
    memcpy(list, strange_most, sizeof list);
    expect_refusal(EXPRESSION, output(), "galthumir_output_ordering", "1 before 5: an unknown key");
    mend();
}

/* In a full arena of columns, where the shifted column would be new. */
static void before_three(void)
{
    uint16_t numbers[] = {2, GALTHUMIR_MAX_NODES - 1, 0, 0, 1};
    make_columns(cells, GALTHUMIR_MAX_NODES);
    expect_done(galthumir_new_orderings(cells, numbers, COUNT_OF(numbers), list), "galthumir_new_orderings");
    expect_refusal(GALTHUMIR_REFUSED_ARENA_FULL, shift_by(1), "galthumir_add_offset", "a full arena");
    put_key(list, 1, GALTHUMIR_KEY(GALTHUMIR_MAX_NODES, 1));
    expect_refusal(EXPRESSION, shift_by(1), "galthumir_add_offset", "1 before 3: an unknown key");
    put_key(list, 1, GALTHUMIR_KEY(0, 1));
    break_count(list);
    expect_refusal(STATE, shift_by(1), "galthumir_add_offset", "11 before 3: 33 orderings");
    mend();
}

void ordering_cases(void)
{
    make_cells();
    make_lists();
    keep();
    sound();
    without_nodes();
    broken_arenas();
    broken_lists();
    cut_lists();
    twelve_before_eleven();
    eleven_before_one();
    eleven_before_one_in_joins();
    eleven_before_ten_and_five();
    one_before_ten_and_five();
    before_three();
}
