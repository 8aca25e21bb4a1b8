/* What is lent to a call: a copy of each array is kept until the call has ended, so that a refusal which changes a byte
 * is seen. */
#ifndef LENT_H
#define LENT_H

#include <stdbool.h>
#include <stddef.h>

/* Lends bytes to the next call: keeps a copy, and answers the bytes themselves. */
void *lend(void *bytes, size_t size);

/* Fills bytes that are to be written, so that nothing of an earlier answer is left, and lends them. */
void *lend_blank(void *bytes, size_t size);

#define LEND(array) lend((array), sizeof(array))
#define LEND_BLANK(array) lend_blank((array), sizeof(array))

/* Ends the call: whether every byte that was lent to it is as it was before. */
bool as_before(void);

#endif
