/* States that keep every rule, what else a call is lent, and where it writes. */
#ifndef GOOD_H
#define GOOD_H

#include <stddef.h>
#include <stdint.h>

#include "galthumir.h"

/* The nodes: two columns, the literal 5, and an operation over the columns. */
enum { A, B, FIVE, SUM, UNKNOWN_EXPR };

/* A group in which a = b and 5 is known; orderings by a, and by b descending and the operation; a map in which a rests
 * on b, and b on nothing. */
extern uint32_t arena[GALTHUMIR_ARENA_CELLS];
extern uint32_t group[GALTHUMIR_GROUP_CELLS], good_group[GALTHUMIR_GROUP_CELLS];
extern uint16_t orderings[GALTHUMIR_ORDERINGS_CELLS], good_orderings[GALTHUMIR_ORDERINGS_CELLS];
extern uint16_t map[GALTHUMIR_MAP_CELLS];

/* What calls write. */
extern uint32_t numbers[6];
extern size_t sizes[6];
extern uint32_t made_group[GALTHUMIR_GROUP_CELLS];
extern uint16_t made_orderings[GALTHUMIR_ORDERINGS_CELLS];
extern uint16_t made_ordering[GALTHUMIR_ORDERING_CELLS];
extern uint32_t projected[4];
extern uint16_t enumerated[GALTHUMIR_ENUMERATION_OUTPUT];

/* Lists that are lent. */
extern uint32_t children[2], exprs[2], keys[4], classes[5], mapping[3];
extern uint16_t lists[8];

/* A record of a group with one class, [a, b]. */
extern uint8_t group_record[18];

/* Makes the states, through the library. */
void make_states(void);

/* Makes them as they were again, after calls that changed them. */
void restore_states(void);

#endif
