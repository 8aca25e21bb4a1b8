/* Calls with the numbers that a case gives, over `arena` and `group`. What they answer is where good.h says. */
#ifndef ASKING_H
#define ASKING_H

#include <stddef.h>
#include <stdint.h>

/* Numbers that are lent as a list. */
struct list {
    uint32_t *numbers;
    size_t count;
};

#define LIST(...) \
    ((struct list){(uint32_t[]){__VA_ARGS__}, sizeof((uint32_t[]){__VA_ARGS__}) / sizeof(uint32_t)})
#define NOTHING ((struct list){(uint32_t[]){0}, 0})

/* Nodes. */
uint32_t ask_operation(uint32_t label, struct list of);
uint32_t ask_node(uint32_t expr);
uint32_t ask_child(uint32_t expr, uint32_t place);
uint32_t ask_shift(uint32_t expr, int64_t offset);

/* What changes the group. */
uint32_t ask_open(uint32_t limit);
uint32_t ask_condition(uint32_t left, uint32_t right);
uint32_t ask_constant(uint32_t expr, uint32_t flavour, uint32_t value);

/* Questions, and normal forms. */
uint32_t ask_class(uint32_t expr);
uint32_t ask_whether_equal(uint32_t left, uint32_t right);
uint32_t ask_whether_constant(uint32_t expr);
uint32_t ask_form(uint32_t expr);
uint32_t ask_key(uint32_t expr, uint32_t options);
uint32_t ask_keys(struct list keys);

/* What makes a group: of a list of classes, by a join of `group` with `other_group`, by a projection. */
extern uint32_t other_group[];
uint32_t ask_new(struct list classes);
uint32_t ask_join(uint32_t kind, size_t left_size, struct list pairs);
uint32_t ask_group_projection(struct list mapping);

/* Projections of one expression, and of several into an output of so many places. */
#define MOST_PROJECTED 12
extern uint32_t projected_list[MOST_PROJECTED];
uint32_t ask_projection(struct list mapping, uint32_t expr);
uint32_t ask_projections(struct list mapping, struct list of, size_t room);

#endif
