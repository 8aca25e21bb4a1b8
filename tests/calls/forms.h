/* What a line asks for, read by the form of its command. */
#ifndef FORMS_H
#define FORMS_H

#include <stdbool.h>
#include <stddef.h>
#include <stdint.h>

#include "states.h"
#include "text.h"

/* A form has a letter for each word:
 *   h  a number of 16 bits            G g  a group, made or changed, or only read
 *   n  a number of 32 bits            O o  a list of orderings
 *   z  a number of 64 bits            M m  a mapping
 *   i  an offset                      D d  a dependency map
 *   k  a key, E:O                     K    keys, E:O,E:O,.. or -
 *   t  a key, or - for none
 * and may end with one that is for any number of words:
 *   e  an expression                  s  a source with its targets, S=T,T,..
 *   c  a class, F:V:E,E,..            l  the keys of an ordering, E:O,E:O,.. or -, of 16 bits
 *   p  a pair, A=B */

#define MOST_STATES 3
#define MOST_SINGLE_NUMBERS 6

/* A state that a command names. */
struct named {
    enum kind kind;
    struct text name;
    size_t place;
};

struct asked {
    struct named states[MOST_STATES]; /* in the order of the words */
    size_t states_count;
    uint64_t numbers[MOST_SINGLE_NUMBERS]; /* those of h, n, z, k and t, in the order of the words */
    size_t numbers_count;
    int64_t offset;              /* that of i */
    uint32_t list[MOST_NUMBERS]; /* those of K and of the words at the end, in the form in which they are lent */
    size_t list_count;
};

/* What the last line that was read asks for. */
extern struct asked asked;

/* Reads the words after a command's name. No where they are not of the form. */
bool read_form(const char *form, struct text words);

#endif
