/* Every call that is lent a state, made with states that keep every rule. */
#ifndef EVERY_CALL_H
#define EVERY_CALL_H

#include <stdbool.h>
#include <stddef.h>
#include <stdint.h>

/* The state that a call is lent beside the arena. */
enum lent { ONLY_ARENA, GROUP, ORDERINGS, MAP };

struct call {
    const char *name;
    uint32_t (*make)(void);
    enum lent lent;
    bool has_list; /* of things that take several numbers each */
};

extern const struct call CALLS[];
extern const size_t CALLS_COUNT;

/* How many numbers at the end of such a list are not lent. */
extern size_t cut;

/* The calls that write into an output, with so much room. */
uint32_t project_into(size_t room);
uint32_t prefixes_into(size_t room);
uint32_t generate_into(size_t room);

/* A group's record, so many bytes of it. */
uint32_t read_group_of(size_t bytes);

#endif
