/* What is expected of a call, counted and said where it doesn't hold. */
#ifndef EXPECTING_H
#define EXPECTING_H

#include <stdbool.h>
#include <stddef.h>
#include <stdint.h>

#define COUNT_OF(array) (sizeof(array) / sizeof((array)[0]))

void expect(bool holds, const char *call, const char *what);

/* A call that has to be refused with this number, and to change nothing. */
void expect_refusal(uint32_t wanted, uint32_t returned, const char *call, const char *what);

/* A call that has to be done. */
void expect_done(uint32_t returned, const char *call);

bool same_numbers(const uint32_t *left, const uint32_t *right, size_t count);
bool same_sizes(const size_t *left, const size_t *right, size_t count);

/* Prints 'N passed, M failed', and answers whether nothing failed. */
bool print_counts(void);

#endif
