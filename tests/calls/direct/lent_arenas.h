/* Cells that are no arena, and nodes read from cells that are one. */
#ifndef LENT_ARENAS_H
#define LENT_ARENAS_H

/* Each call with an arena that one cell breaks is refused with 11, and changes nothing. */
void all_calls_with_lent_arenas(void);

/* A full arena, and the same with one node more counted. */
void full_arenas(void);

/* Every node of an arena, and each of its places, is read as its cells have it. */
void nodes_by_their_cells(void);

#endif
