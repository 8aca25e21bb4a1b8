#include <stddef.h>
#include <stdint.h>
#include <string.h>

#include "columns.h"
#include "expecting.h"
#include "galthumir.h"
#include "lent.h"
#include "record_cases.h"

#define MALFORMED GALTHUMIR_REFUSED_MALFORMED
#define NUMBER GALTHUMIR_REFUSED_NUMBER
#define STATE GALTHUMIR_REFUSED_STATE
#define EXPRESSION GALTHUMIR_REFUSED_EXPRESSION
#define FULL GALTHUMIR_REFUSED_GROUP_FULL

/* The nodes: columns 0 to 7, the literals 1, 2, 5 and 7, and operations. */
enum { COLUMNS = 8, LITERAL_1 = 8, LITERAL_5 = 10, NODES = 27 };

static uint32_t cells[GALTHUMIR_ARENA_CELLS], sound_cells[GALTHUMIR_ARENA_CELLS];
static uint32_t made[GALTHUMIR_GROUP_CELLS], wanted[GALTHUMIR_GROUP_CELLS];

/* ---- The arena ---- */

static const uint32_t LITERALS[] = {1, 2, 5, 7};

static const struct {
    uint32_t label;
    size_t count;
    uint32_t children[3];
} OPERATIONS[] = {
    {1, 2, {0, 1}}, {2, 2, {0, 1}}, {1, 2, {1, 0}}, {1, 2, {0, 0}}, {1, 3, {0, 1, 2}},
    {1, 1, {0}},    {2, 1, {1}},    {1, 1, {2}},    {1, 1, {8}},    {1, 0, {0}},
    {2, 0, {0}},    {1, 1, {17}},   {2, 1, {18}},   {1, 2, {8, 0}}, {1, 2, {20, 10}},
};

static void make_cells(void)
{
    uint32_t answer[1];
    make_columns(cells, COLUMNS);
    for (size_t k = 0; k < COUNT_OF(LITERALS); k++)
        expect_done(galthumir_add_literal(cells, LITERALS[k], answer), "galthumir_add_literal");
    for (size_t k = 0; k < COUNT_OF(OPERATIONS); k++)
        expect_done(galthumir_add_operation(cells, OPERATIONS[k].label, OPERATIONS[k].children, OPERATIONS[k].count, answer),
                    "galthumir_add_operation");
    expect(cells[GALTHUMIR_ARENA_COUNT] == NODES, "galthumir_add_operation", "the last node");
    memcpy(sound_cells, cells, sizeof cells);
}

static void mend_cells(void)
{
    memcpy(cells, sound_cells, sizeof cells);
}

/* One node more is counted than there are. */
static void break_cells(void)
{
    cells[GALTHUMIR_ARENA_COUNT] = NODES + 1;
}

/* ---- What is expected ---- */

static uint32_t read(uint8_t *bytes, size_t count)
{
    return galthumir_read_group(LEND(cells), lend(bytes, count), count, LEND_BLANK(made));
}

static void expect_refused(uint32_t refusal, uint8_t *bytes, size_t count, const char *what)
{
    expect_refusal(refusal, read(bytes, count), "galthumir_read_group", what);
}

/* Begins with the group that is expected: limit 256, no class. */
static void want_group(void)
{
    memset(wanted, 0, sizeof wanted);
    wanted[GALTHUMIR_GROUP_LIMIT] = GALTHUMIR_MAX_MEMBERS;
}

/* Begins with the next class of it. */
static void want_class(uint32_t flavour, uint32_t value)
{
    uint32_t place = wanted[GALTHUMIR_GROUP_COUNT]++;
    wanted[GALTHUMIR_GROUP_FLAVOURS + place] = flavour;
    wanted[GALTHUMIR_GROUP_VALUES + place] = value;
}

/* The next member of its last class. */
static void want_member(uint32_t expr)
{
    wanted[GALTHUMIR_GROUP_SIZES + wanted[GALTHUMIR_GROUP_COUNT] - 1]++;
    wanted[GALTHUMIR_GROUP_MEMBERS + wanted[GALTHUMIR_GROUP_USED]++] = expr;
}

/* The record is read, the group is the expected one, and it passes the check. */
static void expect_group(uint8_t *bytes, size_t count, const char *what)
{
    expect_done(read(bytes, count), "galthumir_read_group");
    expect(memcmp(made, wanted, sizeof wanted) == 0, "galthumir_read_group", what);
    expect_done(galthumir_check_group(cells, made), "galthumir_check_group");
}

/* ---- Records ---- */

#define NO_CLASS {2, 0, 16, 0, 0, 0}

/* A group of one class of two members. */
#define SINGLE_BYTES 18

static void make_single(uint8_t bytes[SINGLE_BYTES], uint8_t flavour, uint8_t value, uint8_t first, uint8_t second)
{
    const uint8_t record[SINGLE_BYTES] = {14, 0, 16, 0, 1, 0, flavour, 0, value, 0, 0, 0, 2, 0, first, 0, second, 0};
    memcpy(bytes, record, sizeof record);
}

static void expect_single(uint8_t flavour, uint8_t value, uint8_t first, uint8_t second, const char *what)
{
    uint8_t bytes[SINGLE_BYTES];
    make_single(bytes, flavour, value, first, second);
    want_group();
    want_class(flavour, value);
    want_member(first);
    want_member(second);
    expect_group(bytes, sizeof bytes, what);
}

static void expect_single_refused(uint32_t refusal, uint8_t flavour, uint8_t first, uint8_t second, const char *what)
{
    uint8_t bytes[SINGLE_BYTES];
    make_single(bytes, flavour, 0, first, second);
    expect_refused(refusal, bytes, sizeof bytes, what);
}

/* A group of the classes [0 1] of value 7 and [2], 28 bytes, and four bytes after it. */
#define PAIR_BYTES 32

static const uint8_t PAIR[PAIR_BYTES] = {24, 0, 16, 0, 2, 0, 3, 0, 7, 0, 0, 0, 2, 0, 0, 0,
                                         1,  0, 0,  0, 0, 0, 0, 0, 1, 0, 2, 0, 0, 0, 0, 0};

/* Puts two bytes into such a record. */
static void make_pair(uint8_t bytes[PAIR_BYTES], size_t at, uint8_t byte, size_t also_at, uint8_t also)
{
    memcpy(bytes, PAIR, sizeof PAIR);
    bytes[at] = byte;
    bytes[also_at] = also;
}

/* The group of such a record, with another flavour and another member of the last class. */
static void expect_pair(uint8_t flavour, uint8_t member, const char *what)
{
    uint8_t bytes[PAIR_BYTES];
    make_pair(bytes, 18, flavour, 26, member);
    want_group();
    want_class(GALTHUMIR_KNOWN, 7);
    want_member(0);
    want_member(1);
    want_class(flavour, 0);
    want_member(member);
    expect_group(bytes, sizeof bytes, what);
}

/* ---- Groups that are read ---- */

static void no_class(void)
{
    uint8_t whole[] = NO_CLASS, followed[] = {2, 0, 16, 0, 0, 0, 9};
    want_group();
    expect_group(whole, sizeof whole, "no class");
    expect_group(followed, sizeof followed, "nonsense after no class");
    memset(cells, 0, sizeof cells);
    expect_group(whole, sizeof whole, "no class, no nodes");
    mend_cells();
}

/* One class of each flavour, the last with the value 67,305,985. */
static void each_flavour(void)
{
    uint8_t bytes[] = {42, 0, 16, 0, 4, 0, 0, 0, 0, 0, 0, 0, 1, 0, 0, 0, 1, 0, 0, 0, 0, 0, 1,
                       0,  1, 0,  2, 0, 0, 0, 0, 0, 1, 0, 2, 0, 3, 0, 1, 2, 3, 4, 1, 0, 3, 0};
    want_group();
    for (uint32_t k = 0; k < 4; k++) {
        want_class(k, k == GALTHUMIR_KNOWN ? 67305985 : 0);
        want_member(k);
    }
    expect_group(bytes, sizeof bytes, "each flavour");
}

static void read_groups_of_two(void)
{
    uint8_t bytes[PAIR_BYTES];
    expect_pair(GALTHUMIR_NO_CONSTANT, 2, "four bytes after the record");
    memcpy(bytes, PAIR, sizeof PAIR);
    expect_group(bytes, 28, "two classes");
    bytes[28] = 255;
    expect_group(bytes, sizeof bytes, "nonsense after the record");
    expect_pair(GALTHUMIR_UNKNOWN, LITERAL_5, "a literal in an unknown class, after another");
    expect_pair(GALTHUMIR_NO_CONSTANT, NODES - 1, "the last node, in the last class");
    expect_single(GALTHUMIR_HETEROGENEOUS, 0, 5, 3, "members in their order");
    expect_single(GALTHUMIR_UNKNOWN, 0, 12, 17, "operations");
    expect_single(GALTHUMIR_NO_CONSTANT, 0, 0, NODES - 1, "the last node");
    expect_single(GALTHUMIR_KNOWN, 0, 0, 1, "known 0");
    expect_single(GALTHUMIR_KNOWN, 5, LITERAL_5, 2, "a literal in a class of its value");
    expect_single(GALTHUMIR_KNOWN, 7, LITERAL_5, 2, "a literal in a class of another value");
    expect_single(GALTHUMIR_UNKNOWN, 0, LITERAL_5, 2, "a literal in an unknown class");
    expect_single(GALTHUMIR_UNKNOWN, 0, LITERAL_5, LITERAL_1, "two literals in one class");
}

/* ---- Groups that are refused ---- */

/* A record of a few bytes that is refused. */
static const struct {
    const char *what;
    uint32_t refusal;
    size_t count;
    uint8_t bytes[24];
} SHORT_RECORDS[] = {
    {"no byte", MALFORMED, 0, {0}},
    {"one byte of the header", MALFORMED, 1, {2}},
    {"two bytes of the header", MALFORMED, 2, {2, 0}},
    {"three bytes of the header", MALFORMED, 3, {2, 0, 16}},
    {"the header alone", MALFORMED, 4, {2, 0, 16, 0}},
    {"the body cut by a byte", MALFORMED, 5, {2, 0, 16, 0, 0}},
    {"no body", MALFORMED, 4, {0, 0, 16, 0}},
    {"half a count of classes", MALFORMED, 5, {1, 0, 16, 0, 0}},
    {"a byte after no class", MALFORMED, 7, {3, 0, 16, 0, 0, 0, 0}},
    {"a class without its count of members", MALFORMED, 12, {8, 0, 16, 0, 1, 0, 0, 0, 0, 0, 0, 0}},
    {"an empty class", STATE, 14, {10, 0, 16, 0, 1, 0, 0, 0, 0, 0, 0, 0, 0, 0}},
    {"an empty class with a value", STATE, 14, {10, 0, 16, 0, 1, 0, 3, 0, 7, 0, 0, 0, 0, 0}},
    {"12 before 11: flavour 4, an empty class", NUMBER, 14, {10, 0, 16, 0, 1, 0, 4, 0, 0, 0, 0, 0, 0, 0}},
    {"11 before 1: member 27, an empty class", STATE, 24,
     {20, 0, 16, 0, 2, 0, 0, 0, 0, 0, 0, 0, 1, 0, NODES, 0, 0, 0, 0, 0, 0, 0, 0, 0}},
};

#define ONCE(at, byte) at, byte, at, byte

/* The record of two classes with two bytes put into it. */
static const struct {
    const char *what;
    uint32_t refusal;
    size_t at;
    uint8_t byte;
    size_t also_at;
    uint8_t also;
} CHANGED[] = {
    {"kind 1", MALFORMED, ONCE(2, 1)},
    {"kind 15", MALFORMED, ONCE(2, 15)},
    {"kind 17", MALFORMED, ONCE(2, 17)},
    {"kind 272", MALFORMED, ONCE(3, 1)},
    {"kind 4,096", MALFORMED, 2, 0, 3, 16},
    {"a body one byte short", MALFORMED, ONCE(0, 23)},
    {"a body two bytes short", MALFORMED, ONCE(0, 22)},
    {"a body one byte long", MALFORMED, ONCE(0, 25)},
    {"a body two bytes long", MALFORMED, ONCE(0, 26)},
    {"a length of 280", MALFORMED, ONCE(1, 1)},
    {"0 classes counted of 2", MALFORMED, ONCE(4, 0)},
    {"1 class counted of 2", MALFORMED, ONCE(4, 1)},
    {"3 classes counted of 2", MALFORMED, ONCE(4, 3)},
    {"65,535 classes counted of 2", MALFORMED, 4, 255, 5, 255},
    {"no member counted of the last 1", MALFORMED, ONCE(24, 0)},
    {"2 members counted of the last 1", MALFORMED, ONCE(24, 2)},
    {"65,535 members counted of the last 1", MALFORMED, 24, 255, 25, 255},
    {"3 members counted of the first 2", MALFORMED, ONCE(12, 3)},
    {"flavour 4", NUMBER, ONCE(6, 4)},
    {"flavour 259", NUMBER, ONCE(7, 1)},
    {"flavour 65,535 in the last class", NUMBER, 18, 255, 19, 255},
    {"a value without a constant", NUMBER, ONCE(6, 0)},
    {"a value in a heterogeneous class", NUMBER, ONCE(6, 1)},
    {"a value in an unknown class", NUMBER, ONCE(6, 2)},
    {"value 16,777,216 without a constant", NUMBER, ONCE(23, 1)},
    {"an empty class after another", STATE, 0, 22, 24, 0},
    {"a member twice in a class", STATE, ONCE(16, 0)},
    {"a member in two classes", STATE, ONCE(26, 0)},
    {"another member in two classes", STATE, ONCE(26, 1)},
    {"a literal in a class without a constant", STATE, ONCE(26, LITERAL_5)},
    {"a literal in a heterogeneous class", STATE, 18, 1, 26, LITERAL_5},
    {"member 27 of 27 nodes", EXPRESSION, ONCE(26, NODES)},
    {"member 258", EXPRESSION, ONCE(27, 1)},
    {"member 65,535", EXPRESSION, 26, 255, 27, 255},
    {"9 before 12: a byte short, flavour 4", MALFORMED, 0, 23, 6, 4},
    {"9 before 12: kind 15, flavour 4", MALFORMED, 2, 15, 6, 4},
    {"9 before 11: kind 15, a member twice", MALFORMED, 2, 15, 16, 0},
    {"9 before 1: kind 15, member 27", MALFORMED, 2, 15, 26, NODES},
    {"12 before 11: flavour 4, a member twice", NUMBER, 18, 4, 16, 0},
    {"12 before 11: a value in a heterogeneous class, a literal in another", NUMBER, 6, 1, 26, LITERAL_5},
    {"12 before 1: flavour 4, member 27", NUMBER, 18, 4, 26, NODES},
    {"11 before 1: member 27, member 2 in two classes", STATE, 14, NODES, 16, 2},
    {"11 before 1: member 27, a literal in a class without a constant", STATE, 14, NODES, 26, LITERAL_5},
};

static void refused_records(void)
{
    for (size_t k = 0; k < COUNT_OF(SHORT_RECORDS); k++) {
        uint8_t bytes[sizeof SHORT_RECORDS[k].bytes];
        memcpy(bytes, SHORT_RECORDS[k].bytes, sizeof bytes);
        expect_refused(SHORT_RECORDS[k].refusal, bytes, SHORT_RECORDS[k].count, SHORT_RECORDS[k].what);
    }
    for (size_t k = 0; k < COUNT_OF(CHANGED); k++) {
        uint8_t bytes[PAIR_BYTES];
        make_pair(bytes, CHANGED[k].at, CHANGED[k].byte, CHANGED[k].also_at, CHANGED[k].also);
        expect_refused(CHANGED[k].refusal, bytes, sizeof bytes, CHANGED[k].what);
    }
    expect_single_refused(STATE, 0, NODES, NODES, "11 before 1: member 27 twice");
}

static void refused_by_the_arena(void)
{
    uint8_t none[] = NO_CLASS;
    break_cells();
    expect_single_refused(STATE, 0, 0, 1, "cells that are no arena");
    expect_refused(STATE, none, sizeof none, "cells that are no arena, no class");
    expect_refused(MALFORMED, none, 3, "9 before 11: the header cut, cells that are no arena");
    expect_single_refused(NUMBER, 4, 0, 1, "12 before 11: flavour 4, cells that are no arena");
    expect_single_refused(STATE, 0, 0, NODES + 1, "11 before 1: member 28, cells that are no arena");
    memset(cells, 0, sizeof cells);
    expect_single_refused(EXPRESSION, 0, 0, 1, "members in an arena without nodes");
    mend_cells();
}

/* ---- 64 classes and 256 members, and more ---- */

#define LARGE_BYTES 2100

static uint8_t large[LARGE_BYTES];
static size_t used;

static void put(uint32_t number)
{
    large[used++] = (uint8_t)(number % 256);
    large[used++] = (uint8_t)(number / 256);
}

/* Writes a class without a constant, of the expressions from one on. */
static void put_class(uint32_t from, uint32_t count)
{
    used += 6;
    put(count);
    for (uint32_t k = 0; k < count; k++)
        put(from + k);
}

/* Writes the record of so many classes: the first of so many members from an expression on, every other of as many. */
static void make_large(uint32_t from, uint32_t first, uint32_t classes, uint32_t others)
{
    memset(large, 0, sizeof large);
    used = 6;
    for (uint32_t k = 0; k < classes; k++) {
        uint32_t count = k == 0 ? first : others;
        put_class(from, count);
        from += count;
    }
    size_t end = used;
    used = 0;
    put((uint32_t)(end - 4));
    put(16);
    put(classes);
}

static void expect_large(uint32_t from, uint32_t first, uint32_t classes, uint32_t others, const char *what)
{
    make_large(from, first, classes, others);
    want_group();
    for (uint32_t k = 0; k < classes; k++) {
        want_class(GALTHUMIR_NO_CONSTANT, 0);
        for (uint32_t member = k == 0 ? first : others; member > 0; member--)
            want_member(from++);
    }
    expect_group(large, sizeof large, what);
}

static void expect_large_refused(uint32_t refusal, uint32_t from, uint32_t first, uint32_t classes, uint32_t others,
                                 const char *what)
{
    make_large(from, first, classes, others);
    expect_refused(refusal, large, sizeof large, what);
}

/* 65 classes of one member each, with a byte that is another. */
static void expect_fault(uint32_t refusal, size_t at, uint8_t byte, const char *what)
{
    make_large(0, 1, 65, 1);
    large[at] = byte;
    expect_refused(refusal, large, sizeof large, what);
}

static void large_groups(void)
{
    make_columns(cells, GALTHUMIR_MAX_NODES);
    expect_large(0, 1, 64, 1, "64 classes of one member");
    expect_large(0, 4, 64, 4, "64 classes of four members");
    expect_large(0, 256, 1, 0, "one class of 256 members");
    expect_large(768, 256, 1, 0, "one class of 256 members, the last node too");
    expect_large(1022, 2, 1, 0, "members 1,022 and 1,023");
    expect_large_refused(FULL, 0, 1, 65, 1, "65 classes of one member");
    expect_large_refused(FULL, 0, 5, 64, 4, "63 classes of four members and one of five");
    expect_large_refused(FULL, 0, 257, 1, 0, "one class of 257 members");
    expect_large_refused(FULL, 0, 4, 65, 4, "65 classes and 260 members");
    expect_large_refused(FULL, 0, 1024, 1, 0, "one class of every node");
    expect_large_refused(EXPRESSION, 960, 1, 65, 1, "1 before 4: 65 classes, member 1,024");
    expect_large_refused(EXPRESSION, 768, 257, 1, 0, "1 before 4: 257 members, member 1,024");
    expect_large_refused(FULL, 959, 1, 65, 1, "65 classes, all in the arena");
    expect_large_refused(FULL, 767, 257, 1, 0, "257 members, all in the arena");
    expect_fault(MALFORMED, 0, 139, "9 before 4: 65 classes, a byte short");
    expect_fault(NUMBER, 6, 4, "12 before 4: 65 classes, flavour 4");
    expect_fault(STATE, 24, 0, "11 before 4: 65 classes, a member in two of them");
    expect_fault(FULL, 24, 1, "65 classes, no other fault");
    expect_large_refused(STATE, 0, 1, 65, 0, "11 before 4: 65 classes, all but one empty");
}

void group_record_cases(void)
{
    make_cells();
    no_class();
    each_flavour();
    read_groups_of_two();
    refused_records();
    refused_by_the_arena();
    large_groups();
}
