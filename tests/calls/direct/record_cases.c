#include "record_cases.h"

#include <stddef.h>
#include <stdint.h>
#include <string.h>

#include "expecting.h"
#include "galthumir.h"
#include "lent.h"

#define MALFORMED GALTHUMIR_REFUSED_MALFORMED
#define NUMBER GALTHUMIR_REFUSED_NUMBER
#define BODY 22

static size_t sizes[4];

/* What a record says: its kind and up to three numbers, or kind 0 where it is malformed. */
struct said {
    size_t of[4];
};

static const struct said NOTHING = {{0, 0, 0, 0}};

/* ---- Reading ---- */

static void expect_read(uint8_t *bytes, size_t count, struct said wanted, const char *what)
{
    uint32_t returned = galthumir_read_record(lend(bytes, count), count, LEND_BLANK(sizes));
    if (wanted.of[0] == 0) {
        expect_refusal(MALFORMED, returned, "galthumir_read_record", what);
    } else {
        expect_done(returned, "galthumir_read_record");
        expect(same_sizes(sizes, wanted.of, COUNT_OF(wanted.of)), "galthumir_read_record", what);
    }
}

/* Reads a record that says a kind and a length, and has the bytes 1, 2, 3 and so on as its body, so many of them. */
static void expect_body(uint16_t kind, uint8_t length, size_t there, struct said wanted, const char *what)
{
    uint8_t bytes[4 + BODY] = {length, 0, (uint8_t)(kind % 256), (uint8_t)(kind / 256)};
    for (uint8_t k = 0; k < BODY; k++)
        bytes[4 + k] = (uint8_t)(k + 1);
    expect_read(bytes, 4 + there, wanted, what);
}

/* A kind, the length that it has or may have, and what such a record says. */
static const struct {
    uint16_t kind;
    uint8_t length;
    struct said said;
} KINDS[] = {
    {1, 4, {{1, 513, 1027, 0}}},
    {2, 4, {{2, 67305985, 0, 0}}},
    {3, 8, {{3, 67305985, 2, 0}}},
    {4, 4, {{4, 513, 1027, 0}}},
    {5, 8, {{5, 513, 1027, 134678021}}},
    {6, 2, {{6, 513, 0, 0}}},
    {7, 4, {{7, 513, 1027, 0}}},
    {8, 8, {{8, 2, 0, 0}}},
};

static void each_kind(void)
{
    for (size_t k = 0; k < COUNT_OF(KINDS); k++) {
        uint16_t kind = KINDS[k].kind;
        uint8_t length = KINDS[k].length, less = (uint8_t)(length - 1), more = (uint8_t)(length + 1);
        expect_body(kind, length, length, KINDS[k].said, "a whole record");
        expect_body(kind, less, less, NOTHING, "a length of a byte less");
        expect_body(kind, more, more, NOTHING, "a length of a byte more");
        expect_body(kind, length, less, NOTHING, "a record that is cut by a byte");
        expect_body(kind, length, more, KINDS[k].said, "a byte after the record");
    }
}

/* How many children there are is no matter of the record's form. */
static void operations(void)
{
    static uint8_t long_body[260] = {0, 1, 3, 0};
    uint8_t largest_label[] = {4, 0, 3, 0, 255, 255, 255, 255};
    expect_body(3, 0, 0, NOTHING, "an operation without label");
    expect_body(3, 3, 3, NOTHING, "a label that is cut");
    expect_body(3, 4, 4, (struct said){{3, 67305985, 0, 0}}, "no child");
    expect_body(3, 6, 6, (struct said){{3, 67305985, 1, 0}}, "one child");
    expect_body(3, 22, 22, (struct said){{3, 67305985, 9, 0}}, "nine children");
    expect_read(largest_label, sizeof largest_label, (struct said){{3, 4294967295, 0, 0}}, "the largest label");
    expect_read(long_body, sizeof long_body, (struct said){{3, 0, 126, 0}}, "126 children");
    expect_read(long_body, sizeof long_body - 1, NOTHING, "a body of 256 bytes that is cut");
}

/* An ordering's record that says a length, of 72 bytes. */
static void expect_keys(uint8_t length, struct said wanted, const char *what)
{
    uint8_t bytes[72] = {length, 0, 8, 0};
    expect_read(bytes, sizeof bytes, wanted, what);
}

/* Keys of four bytes, at most 16 of them; what is in them is not judged here. */
static void orderings(void)
{
    expect_body(8, 0, 0, NOTHING, "no key");
    expect_body(8, 4, 4, (struct said){{8, 1, 0, 0}}, "one key");
    expect_body(8, 6, 6, NOTHING, "one key and a half");
    expect_keys(60, (struct said){{8, 15, 0, 0}}, "15 keys");
    expect_keys(64, (struct said){{8, 16, 0, 0}}, "16 keys");
    expect_keys(63, NOTHING, "16 keys without a byte");
    expect_keys(65, NOTHING, "16 keys and a byte");
    expect_keys(68, NOTHING, "17 keys");
}

/* A body that kinds 1, 2, 4, 7 and 8 would have, none, and one that is a group's. */
static void other_kinds(void)
{
    static const uint16_t OTHERS[] = {0, 9, 10, 16, 257, 2048, 65535};
    uint8_t no_class[] = {2, 0, 16, 0, 0, 0};
    for (size_t k = 0; k < COUNT_OF(OTHERS); k++)
        expect_body(OTHERS[k], 4, 4, NOTHING, "a kind that a session doesn't read");
    expect_body(0, 0, 0, NOTHING, "kind 0 without a body");
    expect_read(no_class, sizeof no_class, NOTHING, "a group of no class");
}

static void cut_records(void)
{
    uint8_t header[] = {4, 0, 1}, length_260[] = {4, 1, 1, 0, 1, 2, 3, 4}, length_65535[] = {255, 255, 3, 0, 1, 2, 3, 4};
    for (size_t there = 0; there <= sizeof header; there++)
        expect_read(header, there, NOTHING, "a header that is cut");
    for (size_t there = 0; there < 4; there++)
        expect_body(1, 4, there, NOTHING, "a body that is cut");
    expect_read(length_260, sizeof length_260, NOTHING, "a length of 260 over four bytes");
    expect_read(length_65535, sizeof length_65535, NOTHING, "a length of 65,535 over four bytes");
}

static void followed_records(void)
{
    struct said normal_form = {{6, 513, 0, 0}};
    uint8_t another[] = {2, 0, 6, 0, 1, 2, 4, 0, 1, 0, 1, 2, 3, 4}, nonsense[] = {2, 0, 6, 0, 1, 2, 255, 255, 255};
    expect_read(another, sizeof another, normal_form, "another record after it");
    expect_read(another, 9, normal_form, "a part of a record after it");
    expect_read(nonsense, sizeof nonsense, normal_form, "nonsense after it");
}

void record_cases(void)
{
    each_kind();
    operations();
    orderings();
    other_kinds();
    cut_records();
    followed_records();
}

/* ---- The choice between two records ---- */

struct bytes {
    size_t count;
    uint8_t of[12];
};

/* Sound records for either side. */
#define LEFT {7, {3, 0, 16, 0, 7, 8, 9}}
#define RIGHT {6, {2, 0, 16, 0, 5, 6}}

/* A join kind, both records, the refusal or 0, and how many bytes of the chosen one are the record. */
static const struct {
    uint32_t kind;
    struct bytes left, right;
    uint32_t refusal;
    size_t part;
} CHOICES[] = {
    /* Kinds 4 to 6 choose the left record, 7 to 9 the right one. */
    {4, LEFT, RIGHT, 0, 7},
    {5, LEFT, RIGHT, 0, 7},
    {6, LEFT, RIGHT, 0, 7},
    {7, LEFT, RIGHT, 0, 6},
    {8, LEFT, RIGHT, 0, 6},
    {9, LEFT, RIGHT, 0, 6},
    /* Kinds under 4 and over 9, also where a record is none; 260 and 65,540 have 4 as their lower bytes. */
    {0, LEFT, RIGHT, NUMBER, 0},
    {3, LEFT, RIGHT, NUMBER, 0},
    {10, LEFT, RIGHT, NUMBER, 0},
    {260, LEFT, RIGHT, NUMBER, 0},
    {65535, LEFT, RIGHT, NUMBER, 0},
    {65540, LEFT, RIGHT, NUMBER, 0},
    {UINT32_MAX, LEFT, RIGHT, NUMBER, 0},
    {3, {2, {3, 0}}, RIGHT, NUMBER, 0},
    {10, LEFT, {0, {0}}, NUMBER, 0},
    /* What stands after the record is left out. */
    {4, {8, {3, 0, 16, 0, 7, 8, 9, 1}}, RIGHT, 0, 7},
    {7, LEFT, {7, {2, 0, 16, 0, 5, 6, 1}}, 0, 6},
    {8, LEFT, {12, {2, 0, 16, 0, 5, 6, 2, 0, 16, 0, 7, 8}}, 0, 6},
    /* A chosen record with a cut header. */
    {4, {0, {0}}, RIGHT, MALFORMED, 0},
    {5, {1, {3}}, RIGHT, MALFORMED, 0},
    {6, {2, {3, 0}}, RIGHT, MALFORMED, 0},
    {7, LEFT, {3, {2, 0, 16}}, MALFORMED, 0},
    {8, LEFT, {0, {0}}, MALFORMED, 0},
    /* A chosen record of another kind: 15, 17, 272 and 4,096. */
    {4, {7, {3, 0, 15, 0, 7, 8, 9}}, RIGHT, MALFORMED, 0},
    {5, {7, {3, 0, 17, 0, 7, 8, 9}}, RIGHT, MALFORMED, 0},
    {7, LEFT, {6, {2, 0, 16, 1, 5, 6}}, MALFORMED, 0},
    {9, LEFT, {6, {2, 0, 0, 16, 5, 6}}, MALFORMED, 0},
    /* A chosen record whose length passes its bytes. */
    {4, {7, {4, 0, 16, 0, 7, 8, 9}}, RIGHT, MALFORMED, 0},
    {6, {7, {3, 1, 16, 0, 7, 8, 9}}, RIGHT, MALFORMED, 0},
    {8, LEFT, {6, {255, 255, 16, 0, 5, 6}}, MALFORMED, 0},
    /* The body is not read. */
    {4, {7, {3, 0, 16, 0, 255, 255, 255}}, RIGHT, 0, 7},
    {7, LEFT, {5, {1, 0, 16, 0, 255}}, 0, 5},
    {9, LEFT, {4, {0, 0, 16, 0}}, 0, 4},
    /* The other record is not looked at. */
    {4, LEFT, {6, {2, 0, 15, 0, 5, 6}}, 0, 7},
    {5, LEFT, {3, {255, 255, 16}}, 0, 7},
    {6, LEFT, {0, {0}}, 0, 7},
    {7, {7, {4, 0, 16, 0, 7, 8, 9}}, RIGHT, 0, 6},
    {8, {1, {255}}, RIGHT, 0, 6},
    {9, {0, {0}}, RIGHT, 0, 6},
};

/* Bytes of any number, for either side. */
struct side {
    uint8_t *of;
    size_t count;
};

static uint32_t choose(uint32_t kind, struct side left, struct side right)
{
    return galthumir_chosen(kind, lend(left.of, left.count), left.count, lend(right.of, right.count), right.count,
                            LEND_BLANK(sizes));
}

/* The chosen record is on the side that the kind says, and has so many bytes. */
static void expect_part(uint32_t kind, struct side left, struct side right, size_t part)
{
    size_t wanted[] = {kind < 7 ? 0 : 1, part};
    expect_done(choose(kind, left, right), "galthumir_chosen");
    expect(same_sizes(sizes, wanted, COUNT_OF(wanted)), "galthumir_chosen", "which one, and its bytes");
}

static void long_parts(void)
{
    static uint8_t bytes[300] = {36, 1, 16, 0};
    struct bytes left = LEFT, right = RIGHT;
    struct side short_left = {left.of, left.count}, short_right = {right.of, right.count};
    expect_part(6, (struct side){bytes, 300}, short_right, 296);
    expect_part(9, short_left, (struct side){bytes, 296}, 296);
    expect_refusal(MALFORMED, choose(9, short_left, (struct side){bytes, 295}), "galthumir_chosen",
                   "a long record that is cut");
}

void choice_cases(void)
{
    for (size_t k = 0; k < COUNT_OF(CHOICES); k++) {
        struct bytes left = CHOICES[k].left, right = CHOICES[k].right;
        struct side on_left = {left.of, left.count}, on_right = {right.of, right.count};
        if (CHOICES[k].refusal != GALTHUMIR_DONE)
            expect_refusal(CHOICES[k].refusal, choose(CHOICES[k].kind, on_left, on_right), "galthumir_chosen", "refused");
        else
            expect_part(CHOICES[k].kind, on_left, on_right, CHOICES[k].part);
    }
    long_parts();
}
