#include "answers.h"

#include <stddef.h>
#include <stdint.h>

#include "every_call.h"
#include "expecting.h"
#include "galthumir.h"
#include "good.h"
#include "lent.h"

/* ---- Nodes one by one ---- */

static void expect_node(uint32_t expr, uint32_t kind, uint32_t first, uint32_t second)
{
    uint32_t wanted[] = {kind, first, second};
    expect_done(galthumir_read_node(arena, expr, numbers), "galthumir_read_node");
    expect(same_numbers(numbers, wanted, COUNT_OF(wanted)), "galthumir_read_node", "what it reads");
}

static void expect_child(uint32_t expr, uint32_t place, uint32_t is_there, uint32_t child)
{
    uint32_t wanted[] = {is_there, child};
    expect_done(galthumir_read_child(arena, expr, place, numbers), "galthumir_read_child");
    expect(same_numbers(numbers, wanted, COUNT_OF(wanted)), "galthumir_read_child", "what it reads");
}

void nodes(void)
{
    expect_node(B, GALTHUMIR_COLUMN, 2, 1);
    expect_node(FIVE, GALTHUMIR_LITERAL, 5, 0);
    expect_node(SUM, GALTHUMIR_OPERATION, 7, 2);
    expect_child(SUM, 1, 1, B);
    expect_child(SUM, 2, 0, 0);
    expect_child(SUM, UINT32_MAX, 0, 0);
    expect_child(A, 0, 0, 0);
    expect_refusal(GALTHUMIR_REFUSED_EXPRESSION, galthumir_read_node(LEND(arena), UNKNOWN_EXPR, LEND_BLANK(numbers)),
                   "galthumir_read_node", "unknown");
    expect_refusal(GALTHUMIR_REFUSED_EXPRESSION,
                   galthumir_read_child(LEND(arena), UNKNOWN_EXPR, 0, LEND_BLANK(numbers)), "galthumir_read_child",
                   "unknown");
}

/* ---- Outputs that have just enough room, and one place less ---- */

static void enumeration_outputs(uint32_t (*into)(size_t), const char *call)
{
    expect_done(into(COUNT_OF(enumerated)), call);
    size_t places = sizes[1];
    expect(places > 0, call, "places of the output");
    uint16_t past = enumerated[places];
    expect_done(into(places), call);
    expect(enumerated[places] == past, call, "output past the last ordering");
    expect_refusal(GALTHUMIR_REFUSED_OUTPUT_SHORT, into(places - 1), call, "an output that is too short");
}

void outputs(void)
{
    enumeration_outputs(prefixes_into, "galthumir_construct_prefix_orderings");
    enumeration_outputs(generate_into, "galthumir_generate_dependency_orderings");
    uint32_t wanted[] = {B, FIVE};
    expect_done(project_into(COUNT_OF(exprs)), "galthumir_project_expressions");
    expect(same_numbers(projected, wanted, COUNT_OF(wanted)), "galthumir_project_expressions", "what is projected");
    expect(projected[2] == projected[3], "galthumir_project_expressions", "output past the last one");
    expect_refusal(GALTHUMIR_REFUSED_OUTPUT_SHORT, project_into(COUNT_OF(exprs) - 1), "galthumir_project_expressions",
                   "an output that is too short");
}
