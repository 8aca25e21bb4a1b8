#include "columns.h"

#include <string.h>

#include "expecting.h"

void make_columns(uint32_t cells[GALTHUMIR_ARENA_CELLS], uint32_t n)
{
    memset(cells, 0, GALTHUMIR_ARENA_CELLS * sizeof cells[0]);
    cells[GALTHUMIR_ARENA_COUNT] = n;
    for (uint32_t expr = 0; expr < n; expr++) {
        cells[NODE(expr, KIND)] = GALTHUMIR_COLUMN;
        cells[NODE(expr, PAYLOAD)] = expr;
    }
    expect_done(galthumir_check_arena(cells), "galthumir_check_arena");
}
