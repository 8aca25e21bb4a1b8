/* Arenas of columns, written cell by cell, and where things stand in the cells of a state. */
#ifndef COLUMNS_H
#define COLUMNS_H

#include <stdint.h>

#include "galthumir.h"

/* The cell of a node's part, of an ordering's key count (its keys follow), and of a part of a map's node. */
#define NODE(expr, part) (GALTHUMIR_ARENA_NODES + GALTHUMIR_NODE_CELLS * (expr) + GALTHUMIR_NODE_##part)
#define ORDERING(place) (GALTHUMIR_ORDERINGS_LIST + GALTHUMIR_ORDERING_CELLS * (place))
#define MAP_NODE(place, part) (GALTHUMIR_MAP_LIST + GALTHUMIR_MAP_NODE_CELLS * (place) + GALTHUMIR_MAP_NODE_##part)

/* Makes the arena of the columns of name 0 with the indexes 0 to before n, in their order. */
void make_columns(uint32_t cells[GALTHUMIR_ARENA_CELLS], uint32_t n);

#endif
