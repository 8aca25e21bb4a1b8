#include "lent_groups.h"

#include <stdbool.h>
#include <stddef.h>
#include <stdint.h>

#include "asking.h"
#include "every_call.h"
#include "expecting.h"
#include "galthumir.h"
#include "good.h"
#include "lent.h"
#include "worked.h"

#define DONE GALTHUMIR_DONE
#define NUMBER GALTHUMIR_REFUSED_NUMBER
#define STATE GALTHUMIR_REFUSED_STATE
#define EXPRESSION GALTHUMIR_REFUSED_EXPRESSION

#define LIMIT (group + GALTHUMIR_GROUP_LIMIT)
#define COUNT (group + GALTHUMIR_GROUP_COUNT)
#define USED (group + GALTHUMIR_GROUP_USED)
#define SIZE(place) (group + GALTHUMIR_GROUP_SIZES + (place))
#define FLAVOUR(place) (group + GALTHUMIR_GROUP_FLAVOURS + (place))
#define VALUE(place) (group + GALTHUMIR_GROUP_VALUES + (place))
#define MEMBER(place) (group + GALTHUMIR_GROUP_MEMBERS + (place))

/* 28 nodes are counted, and there are 27. */
#define NO_ARENA {arena + GALTHUMIR_ARENA_COUNT, WORKED_NODES + 1}

struct way {
    const char *how;
    uint32_t wanted;
    struct put puts[MOST_PUTS];
};

/* The group is [0 1], [10 2] of value 5 and [3] unknown, with a limit of 8. Expression 10 is literal 5. */
static const struct way WAYS[] = {
    {"nothing changed", DONE, {{0}}},
    /* Numbers outside their sets; then the same over cells that are no arena. */
    {"limit 0", NUMBER, {{LIMIT, 0}}},
    {"limit 257", NUMBER, {{LIMIT, 257}}},
    {"limit 4,294,967,295", NUMBER, {{LIMIT, UINT32_MAX}}},
    {"flavour 4", NUMBER, {{FLAVOUR(0), 4}}},
    {"flavour 4,294,967,295", NUMBER, {{FLAVOUR(2), UINT32_MAX}}},
    {"a value without a constant", NUMBER, {{VALUE(0), 5}}},
    {"a value in a heterogeneous class", NUMBER, {{VALUE(0), 5}, {FLAVOUR(0), GALTHUMIR_HETEROGENEOUS}}},
    {"a value in an unknown class", NUMBER, {{VALUE(0), 5}, {FLAVOUR(0), GALTHUMIR_UNKNOWN}}},
    {"limit 0, no arena", NUMBER, {{LIMIT, 0}, NO_ARENA}},
    {"limit 257, no arena", NUMBER, {{LIMIT, 257}, NO_ARENA}},
    {"limit 4,294,967,295, no arena", NUMBER, {{LIMIT, UINT32_MAX}, NO_ARENA}},
    {"flavour 4, no arena", NUMBER, {{FLAVOUR(0), 4}, NO_ARENA}},
    {"flavour 4,294,967,295, no arena", NUMBER, {{FLAVOUR(2), UINT32_MAX}, NO_ARENA}},
    {"a value without a constant, no arena", NUMBER, {{VALUE(0), 5}, NO_ARENA}},
    {"a value in a heterogeneous class, no arena", NUMBER,
     {{VALUE(0), 5}, {FLAVOUR(0), GALTHUMIR_HETEROGENEOUS}, NO_ARENA}},
    {"a value in an unknown class, no arena", NUMBER, {{VALUE(0), 5}, {FLAVOUR(0), GALTHUMIR_UNKNOWN}, NO_ARENA}},
    {"no arena", STATE, {NO_ARENA}},
    /* Counts over their bounds, and an empty class. */
    {"5 members and a limit of 4", STATE, {{LIMIT, 4}}},
    {"5 members and a limit of 5", DONE, {{LIMIT, 5}}},
    {"65 classes", STATE, {{COUNT, 65}}},
    {"4,294,967,295 classes", STATE, {{COUNT, UINT32_MAX}}},
    {"an empty class", STATE, {{COUNT, 4}}},
    /* Sizes that don't come to the number of members; the last ones would if a sum of 32 bits could wrap. */
    {"6 members counted", STATE, {{USED, 6}}},
    {"4 members counted", STATE, {{USED, 4}}},
    {"sizes 1 2 1", STATE, {{SIZE(0), 1}}},
    {"sizes 3 2 1", STATE, {{SIZE(0), 3}}},
    {"sizes 2 4,294,967,295 4", STATE, {{SIZE(1), UINT32_MAX}, {SIZE(2), 4}}},
    /* A member twice. */
    {"a member twice in a class", STATE, {{MEMBER(1), 0}}},
    {"a member in two classes", STATE, {{MEMBER(3), 0}}},
    /* A literal's class: it has to be uniform, of whatever value. */
    {"a literal in a class of another value", DONE, {{VALUE(1), 7}}},
    {"a literal in an unknown class", DONE, {{VALUE(1), 0}, {FLAVOUR(1), GALTHUMIR_UNKNOWN}}},
    {"a literal in a heterogeneous class", STATE, {{VALUE(1), 0}, {FLAVOUR(1), GALTHUMIR_HETEROGENEOUS}}},
    {"a literal in a class without a constant", STATE, {{VALUE(1), 0}, {FLAVOUR(1), GALTHUMIR_NO_CONSTANT}}},
    /* The first and the last unused place of each table. A flavour over 3 is no exception. */
    {"an unused size", STATE, {{SIZE(3), 1}}},
    {"the last unused size", STATE, {{SIZE(63), 1}}},
    {"an unused flavour", STATE, {{FLAVOUR(3), 4}}},
    {"the last unused flavour", STATE, {{FLAVOUR(63), 1}}},
    {"an unused value", STATE, {{VALUE(3), 1}}},
    {"the last unused value", STATE, {{VALUE(63), 1}}},
    {"an unused member", STATE, {{MEMBER(5), 4}}},
    {"the last unused member", STATE, {{MEMBER(255), 4}}},
    /* Members that are not in the arena, and the last one that is. */
    {"member 27 of 27 nodes", EXPRESSION, {{MEMBER(1), 27}}},
    {"member 4,294,967,295", EXPRESSION, {{MEMBER(1), UINT32_MAX}}},
    {"member 26 of 27 nodes", DONE, {{MEMBER(1), 26}}},
    /* Where several hold: 12, then 11, then 1. */
    {"limit 0, no arena, counts, a member unknown", NUMBER, {{LIMIT, 0}, NO_ARENA, {USED, 9}, {MEMBER(0), 28}}},
    {"limit 0, no arena, a member unknown", NUMBER, {{LIMIT, 0}, NO_ARENA, {MEMBER(1), 27}}},
    {"limit 0 and a member twice", NUMBER, {{LIMIT, 0}, {MEMBER(1), 0}}},
    {"no arena, a member unknown", STATE, {NO_ARENA, {MEMBER(1), 27}}},
    {"an unknown member twice", STATE, {{MEMBER(0), 27}, {MEMBER(1), 27}}},
    {"an unknown member and an unused one", STATE, {{MEMBER(1), 27}, {MEMBER(9), 1}}},
};

static void with_group(const struct way *way, const struct call *call)
{
    use_worked_states();
    put_all(way->puts);
    if (way->wanted == DONE)
        expect_done(call->make(), call->name);
    else
        expect_refusal(way->wanted, call->make(), call->name, way->how);
}

/* A literal's own value counts, whatever its class has. */
static void expect_own_value(void)
{
    uint32_t five[] = {GALTHUMIR_KNOWN, 5};
    expect_done(ask_whether_constant(LITERAL_FIVE), "galthumir_is_expr_constant");
    expect(same_numbers(numbers, five, COUNT_OF(five)), "galthumir_is_expr_constant", "a literal's own value");
}

/* What is asked of the groups that break no rule. */
static void of_sound_groups(void)
{
    size_t of_one[] = {1, 0, 2, 0, GALTHUMIR_NO_CONSTANT, 0}, of_none[6] = {0};
    use_worked_states();
    expect_done(ask_class(1), "galthumir_get_equivalence_class");
    expect(same_sizes(sizes, of_one, COUNT_OF(of_one)), "galthumir_get_equivalence_class", "the class of 1");
    expect_done(ask_whether_equal(0, 1), "galthumir_exprs_equal");
    expect(numbers[0] == 1, "galthumir_exprs_equal", "0 and 1 in one class");
    *VALUE(1) = 7;
    expect_own_value();
    *VALUE(1) = 0;
    *FLAVOUR(1) = GALTHUMIR_UNKNOWN;
    expect_own_value();
    *MEMBER(1) = 26;
    expect_done(ask_class(1), "galthumir_get_equivalence_class");
    expect(same_sizes(sizes, of_none, COUNT_OF(of_none)), "galthumir_get_equivalence_class", "no class of 1");
    expect_done(ask_whether_equal(0, 1), "galthumir_exprs_equal");
    expect(numbers[0] == 0, "galthumir_exprs_equal", "0 and 1 in no class");
    expect_done(ask_condition(0, 1), "galthumir_add_equal_conditions");
    expect(*USED == 6, "galthumir_add_equal_conditions", "1 is a member again");
}

void all_calls_with_lent_groups(void)
{
    for (size_t at = 0; at < COUNT_OF(WAYS); at++)
        for (size_t k = 0; k < CALLS_COUNT; k++)
            if (CALLS[k].lent == GROUP)
                with_group(&WAYS[at], &CALLS[k]);
    of_sound_groups();
    restore_states();
}

/* ---- Groups at their limits ---- */

static void check_group(void)
{
    expect_done(galthumir_check_group(LEND(arena), LEND(group)), "galthumir_check_group");
}

/* Adds so many conditions, of the first column with each or of each with itself. */
static void use_conditions(uint32_t count, bool together)
{
    use_empty_group();
    for (uint32_t expr = 0; expr < count; expr++)
        expect_done(ask_condition(together ? 0 : expr, expr), "galthumir_add_equal_conditions");
}

static void expect_class(uint32_t expr, size_t place, size_t size, size_t first)
{
    size_t wanted[] = {1, place, size, first, GALTHUMIR_NO_CONSTANT, 0};
    expect_done(ask_class(expr), "galthumir_get_equivalence_class");
    expect(same_sizes(sizes, wanted, COUNT_OF(wanted)), "galthumir_get_equivalence_class", "a full group");
}

void full_groups(void)
{
    use_columns(300);
    use_conditions(256, true);
    check_group();
    expect_class(255, 0, 256, 0);
    expect_refusal(GALTHUMIR_REFUSED_GROUP_FULL, ask_condition(0, 256), "galthumir_add_equal_conditions",
                   "a 257th member");
    use_conditions(64, false);
    check_group();
    expect_class(63, 63, 1, 63);
    expect_refusal(GALTHUMIR_REFUSED_GROUP_FULL, ask_condition(64, 64), "galthumir_add_equal_conditions",
                   "a 65th class");
    use_columns(0);
    use_empty_group();
    check_group();
    restore_states();
}
