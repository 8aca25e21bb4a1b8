/* The lines that show states and orderings. */
#ifndef SHOWING_H
#define SHOWING_H

#include <stddef.h>
#include <stdint.h>

/* The number of nodes, from the arena's own cell. */
uint32_t node_count(void);

/* A line a node. */
void print_nodes(void);

/* A line for the group, then a line a class. */
void print_group(const uint32_t *group);

/* A line for the map, then a line a key. */
void print_map(const uint16_t *map);

/* A line for the list, then a line an ordering. */
void print_orderings(const uint16_t *list);

/* The line of one ordering. */
void print_ordering(const uint16_t *ordering);

/* A line for an enumeration, then a line an ordering of its output. */
void print_enumerated(size_t count, const uint16_t *output);

/* A key as E:O, after a blank. */
void print_key(uint32_t expr, uint32_t options);

#endif
