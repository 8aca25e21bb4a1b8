/* The states of a script: one arena, and groups, lists of orderings, mappings and dependency maps by their names. */
#ifndef STATES_H
#define STATES_H

#include <stdbool.h>
#include <stddef.h>
#include <stdint.h>

#include "galthumir.h"
#include "text.h"

#define MOST_NAMES 16

enum kind { GROUP, ORDERINGS, MAPPING, MAP, KINDS };

/* A mapping as it was given: source, target count and targets of each source. */
struct mapping {
    size_t count;
    uint32_t numbers[MOST_NUMBERS];
};

/* The states have places in the order in which their names were made. The place after the last one is always empty, and
 * stands for every name that was not made. */
extern uint32_t arena[GALTHUMIR_ARENA_CELLS];
extern uint32_t groups[MOST_NAMES + 1][GALTHUMIR_GROUP_CELLS];
extern uint16_t orderings[MOST_NAMES + 1][GALTHUMIR_ORDERINGS_CELLS];
extern struct mapping mappings[MOST_NAMES + 1];
extern uint16_t maps[MOST_NAMES + 1][GALTHUMIR_MAP_CELLS];

/* Makes everything empty, without a name. */
void reset_states(void);

/* Whether a word can be a state's name. */
bool is_name(struct text word);

/* The place of a name among its kind. */
size_t place_of(enum kind kind, struct text name);

/* Whether the state of this name can be made or changed: it is there, or there is room for one more name. */
bool can_be_made(enum kind kind, struct text name);

/* From now on the place of this name is its own. */
void make_name(enum kind kind, struct text name);

#endif
