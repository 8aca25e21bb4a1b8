#include "records.h"

#include <stddef.h>
#include <stdint.h>
#include <string.h>

#include "every_call.h"
#include "expecting.h"
#include "galthumir.h"
#include "good.h"
#include "lent.h"

struct record {
    size_t bytes_count;
    uint8_t bytes[16];
    size_t wanted[4];
};

static const struct record RECORDS[] = {
    {8, {4, 0, 1, 0, 2, 1, 3, 0}, {1, 258, 3, 0}},
    {8, {4, 0, 2, 0, 1, 0, 0, 1}, {2, 16777217, 0, 0}},
    {10, {6, 0, 3, 0, 7, 0, 0, 0, 1, 0}, {3, 7, 1, 0}},
    {8, {4, 0, 4, 0, 1, 0, 2, 0}, {4, 1, 2, 0}},
    {12, {8, 0, 5, 0, 1, 0, 2, 0, 9, 0, 0, 0}, {5, 1, 2, 9}},
    {6, {2, 0, 6, 0, 1, 0}, {6, 1, 0, 0}},
    {8, {4, 0, 7, 0, 1, 0, 2, 0}, {7, 1, 2, 0}},
    {12, {8, 0, 8, 0, 1, 0, 0, 0, 2, 0, 1, 0}, {8, 2, 0, 0}},
};

void read_records(void)
{
    for (size_t k = 0; k < COUNT_OF(RECORDS); k++) {
        struct record record = RECORDS[k];
        expect_done(galthumir_read_record(record.bytes, sizeof record.bytes, sizes), "galthumir_read_record");
        expect(same_sizes(sizes, record.wanted, COUNT_OF(record.wanted)), "galthumir_read_record", "what it reads");
        expect_refusal(GALTHUMIR_REFUSED_MALFORMED,
                       galthumir_read_record(LEND(record.bytes), record.bytes_count - 1, LEND_BLANK(sizes)),
                       "galthumir_read_record", "a record that is cut");
    }
    expect_refusal(GALTHUMIR_REFUSED_MALFORMED,
                   galthumir_read_record(LEND(group_record), sizeof group_record, LEND_BLANK(sizes)),
                   "galthumir_read_record", "kind 16");
}

/* A group record that is refused with this number where one of its bytes is another. */
static void expect_group_refusal(uint32_t wanted, size_t at, uint8_t byte, const char *what)
{
    uint8_t before = group_record[at];
    group_record[at] = byte;
    expect_refusal(wanted, read_group_of(sizeof group_record), "galthumir_read_group", what);
    group_record[at] = before;
}

#define CLASS_BYTES 10
#define MANY_CLASSES (GALTHUMIR_MAX_CLASSES + 1)

/* A record of one class more than a group can have, each with a column of its own. */
static void read_too_many_classes(void)
{
    static uint32_t columns[GALTHUMIR_ARENA_CELLS];
    static uint8_t record[4 + 2 + CLASS_BYTES * MANY_CLASSES] = {
        (2 + CLASS_BYTES * MANY_CLASSES) % 256, (2 + CLASS_BYTES * MANY_CLASSES) / 256, 16, 0, MANY_CLASSES};
    for (uint8_t k = 0; k < MANY_CLASSES; k++) {
        uint8_t *class = record + 6 + CLASS_BYTES * k;
        class[6] = 1;
        class[8] = k;
        expect_done(galthumir_add_column(columns, 0, k, numbers), "galthumir_add_column");
    }
    expect_refusal(GALTHUMIR_REFUSED_GROUP_FULL,
                   galthumir_read_group(LEND(columns), LEND(record), sizeof record, LEND_BLANK(made_group)),
                   "galthumir_read_group", "65 classes");
}

void read_groups(void)
{
    expect_done(read_group_of(sizeof group_record), "galthumir_read_group");
    expect(made_group[GALTHUMIR_GROUP_COUNT] == 1 && made_group[GALTHUMIR_GROUP_USED] == 2, "galthumir_read_group",
           "what it reads");
    expect_refusal(GALTHUMIR_REFUSED_MALFORMED, read_group_of(sizeof group_record - 1), "galthumir_read_group",
                   "a record that is cut");
    expect_group_refusal(GALTHUMIR_REFUSED_MALFORMED, 2, 8, "kind 8");
    expect_group_refusal(GALTHUMIR_REFUSED_NUMBER, 6, GALTHUMIR_KNOWN + 1, "flavour 4");
    expect_group_refusal(GALTHUMIR_REFUSED_NUMBER, 8, 1, "a value where none is known");
    expect_group_refusal(GALTHUMIR_REFUSED_STATE, 16, A, "an expression twice");
    expect_group_refusal(GALTHUMIR_REFUSED_STATE, 16, FIVE, "a literal's class that is not uniform");
    expect_group_refusal(GALTHUMIR_REFUSED_EXPRESSION, 16, UNKNOWN_EXPR, "an unknown member");
    read_too_many_classes();
}

struct bytes {
    uint8_t *bytes;
    size_t count;
};

static uint32_t choose(uint16_t kind, struct bytes left, struct bytes right)
{
    return galthumir_chosen(kind, lend(left.bytes, left.count), left.count, lend(right.bytes, right.count), right.count,
                            LEND_BLANK(sizes));
}

/* A kind that keeps this side: the other record may be cut, the one that is kept may not. */
static void expect_choice(uint16_t kind, size_t side, struct bytes whole, struct bytes broken)
{
    size_t wanted[] = {side, sizeof group_record};
    struct bytes left = side == 0 ? whole : broken, right = side == 0 ? broken : whole;
    expect_done(choose(kind, left, right), "galthumir_chosen");
    expect(same_sizes(sizes, wanted, COUNT_OF(wanted)), "galthumir_chosen", "which one, and its bytes");
    expect_refusal(GALTHUMIR_REFUSED_MALFORMED, choose(kind, right, left), "galthumir_chosen", "one that is cut");
}

void choices(void)
{
    static uint8_t with_more[sizeof group_record + 3];
    memcpy(with_more, group_record, sizeof group_record);
    struct bytes whole = {with_more, sizeof with_more}, broken = {group_record, sizeof group_record - 1};
    for (uint16_t kind = 4; kind <= 6; kind++) {
        expect_choice(kind, 0, whole, broken);
        expect_choice((uint16_t)(kind + 3), 1, whole, broken);
    }
    expect_refusal(GALTHUMIR_REFUSED_NUMBER, choose(3, whole, whole), "galthumir_chosen", "kind 3");
    expect_refusal(GALTHUMIR_REFUSED_NUMBER, choose(10, whole, whole), "galthumir_chosen", "kind 10");
}

/* The paper's example of a session. */
static uint8_t session_input[] = {4, 0, 1, 0, 0, 0, 0, 0, 4, 0, 1, 0, 1, 0, 1, 0, 6, 0, 3, 0, 7, 0, 0, 0,
                                  1, 0, 4, 0, 4, 0, 0, 0, 1, 0, 2, 0, 6, 0, 2, 0, 4, 0, 7, 0, 0, 0, 1, 0};
static const char SESSION_LINES[] = "n 2 3\nq 0 1 1\nend 1 2 0\n";
static uint8_t session_output[GALTHUMIR_SESSION_OUTPUT];

static uint32_t session_into(size_t room)
{
    return galthumir_session(LEND(session_input), sizeof session_input, LEND_BLANK(session_output), room,
                             LEND_BLANK(sizes));
}

void session(void)
{
    size_t length = sizeof SESSION_LINES - 1;
    expect_done(session_into(sizeof session_output), "galthumir_session");
    expect(sizes[0] == length, "galthumir_session", "how many bytes are written");
    expect(memcmp(session_output, SESSION_LINES, length) == 0, "galthumir_session", "the paper's example");
    expect_done(session_into(length), "galthumir_session");
    expect_refusal(GALTHUMIR_REFUSED_OUTPUT_SHORT, session_into(length - 1), "galthumir_session",
                   "an output that is too short");
}
