/* The states of the worked cases. */
#ifndef WORKED_H
#define WORKED_H

#include <stddef.h>
#include <stdint.h>

/* Columns 0 to 7, literals 1, 2, 5 and 7 as expressions 8 to 11, operations 12 to 26. */
enum { LITERAL_FIVE = 10, WORKED_NODES = 27 };

/* `arena` becomes the one of 27 nodes. `group` becomes [0 1], [10 2] of value 5 and [3] unknown, with a limit of 8;
 * `other_group` becomes [4 5]. */
void use_worked_states(void);

/* `arena` becomes one of so many columns of name 0, with the indexes from 0 on. */
void use_columns(uint32_t count);

/* Nodes are added to `arena`, straight into its cells: columns of a name, with the indexes from 0 on; an operation,
 * whose number is answered. */
void put_columns_of(uint32_t name, uint32_t count);
uint32_t put_operation(uint32_t label, const uint32_t *of, uint32_t count);

/* `group` becomes one without classes, of limit 256; or one in which two expressions are equal. */
void use_empty_group(void);
void use_equal(uint32_t left, uint32_t right);

/* Puts a value into a cell of a state. */
struct put {
    uint32_t *cell;
    uint32_t value;
};

#define MOST_PUTS 4
void put_all(const struct put *puts);

#endif
