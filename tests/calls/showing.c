#include "showing.h"

#include <stdio.h>

#include "galthumir.h"
#include "states.h"

static void print_numbers(const uint32_t *numbers, uint32_t count)
{
    for (uint32_t k = 0; k < count; k++)
        printf(" %u", numbers[k]);
    printf("\n");
}

/* ---- Nodes ---- */

uint32_t node_count(void)
{
    return arena[GALTHUMIR_ARENA_COUNT];
}

static void print_node(const uint32_t *node)
{
    uint32_t payload = node[GALTHUMIR_NODE_PAYLOAD];
    switch (node[GALTHUMIR_NODE_KIND]) {
    case GALTHUMIR_COLUMN: printf("col %u %u\n", payload / 65536, payload % 65536); break;
    case GALTHUMIR_LITERAL: printf("lit %u\n", payload); break;
    case GALTHUMIR_OPERATION:
        printf("op %u", payload);
        print_numbers(node + GALTHUMIR_NODE_CHILDREN, node[GALTHUMIR_NODE_CHILD_COUNT]);
        break;
    default: printf("of kind %u\n", node[GALTHUMIR_NODE_KIND]);
    }
}

void print_nodes(void)
{
    for (uint32_t k = 0; k < node_count(); k++) {
        printf("node %u ", k);
        print_node(arena + GALTHUMIR_ARENA_NODES + GALTHUMIR_NODE_CELLS * k);
    }
}

/* ---- Groups ---- */

void print_group(const uint32_t *group)
{
    const uint32_t *members = group + GALTHUMIR_GROUP_MEMBERS;
    uint32_t count = group[GALTHUMIR_GROUP_COUNT];
    printf("g %u %u nodes %u\n", count, group[GALTHUMIR_GROUP_USED], node_count());
    for (uint32_t k = 0; k < count; k++) {
        uint32_t size = group[GALTHUMIR_GROUP_SIZES + k];
        printf("c %u %u", group[GALTHUMIR_GROUP_FLAVOURS + k], group[GALTHUMIR_GROUP_VALUES + k]);
        print_numbers(members, size);
        members += size;
    }
}

/* ---- Keys, orderings and dependency maps ---- */

void print_key(uint32_t expr, uint32_t options)
{
    printf(" %u:%u", expr, options);
}

static void print_packed_key(uint32_t key)
{
    print_key(GALTHUMIR_KEY_EXPR(key), GALTHUMIR_KEY_OPTIONS(key));
}

static void print_packed_keys(const uint16_t *keys, uint32_t count)
{
    for (uint32_t k = 0; k < count; k++)
        print_packed_key(keys[k]);
    printf("\n");
}

void print_ordering(const uint16_t *ordering)
{
    printf("k");
    print_packed_keys(ordering + 1, ordering[0]);
}

void print_orderings(const uint16_t *list)
{
    uint32_t count = list[GALTHUMIR_ORDERINGS_COUNT];
    printf("o %u\n", count);
    for (uint32_t k = 0; k < count; k++)
        print_ordering(list + GALTHUMIR_ORDERINGS_LIST + GALTHUMIR_ORDERING_CELLS * k);
}

static void print_map_node(const uint16_t *node)
{
    uint32_t target = node[GALTHUMIR_MAP_NODE_TARGET];
    printf("d");
    print_packed_key(node[GALTHUMIR_MAP_NODE_KEY]);
    printf(" ->");
    if (target == 0)
        printf(" -");
    else
        print_packed_key(target - 1);
    printf(" :");
    print_packed_keys(node + GALTHUMIR_MAP_NODE_DEPENDENCIES, node[GALTHUMIR_MAP_NODE_SIZE]);
}

void print_map(const uint16_t *map)
{
    uint32_t count = map[GALTHUMIR_MAP_COUNT];
    printf("d %u\n", count);
    for (uint32_t k = 0; k < count; k++)
        print_map_node(map + GALTHUMIR_MAP_LIST + GALTHUMIR_MAP_NODE_CELLS * k);
}

/* Prints an ordering of an enumeration's output, and answers where it ends. */
static const uint16_t *print_written_ordering(const uint16_t *written)
{
    uint32_t count = *written++;
    printf("k");
    for (uint32_t k = 0; k < count; k++, written += 2)
        print_key(written[0], written[1]);
    printf("\n");
    return written;
}

void print_enumerated(size_t count, const uint16_t *output)
{
    printf("o %zu\n", count);
    for (size_t k = 0; k < count; k++)
        output = print_written_ordering(output);
}
