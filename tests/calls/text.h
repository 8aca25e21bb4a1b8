/* Parts of a line, and the words and numbers in them. */
#ifndef TEXT_H
#define TEXT_H

#include <stdbool.h>
#include <stddef.h>
#include <stdint.h>

/* A line has at most this many bytes, and every number that it says takes at least one. */
#define MOST_LINE_BYTES 65536
#define MOST_NUMBERS MOST_LINE_BYTES

/* The bytes from `at` on, up to `end`. What is read from a text is taken off its front. */
struct text {
    const char *at;
    const char *end;
};

size_t text_length(struct text text);
bool is_empty(struct text text);
bool is_text(struct text text, const char *letters, size_t length);
bool is_digit(char letter);

/* The line up to its comment. */
struct text without_comment(struct text line);

/* Takes the next word off a line; it is empty where there is none. */
struct text take_word(struct text *line);

/* Takes a letter off a text, where it begins with it. */
bool take_letter(struct text *text, char letter);

/* Takes a number of decimal digits off a text. No where there is none, or where it is above `most`. */
bool take_number(struct text *text, uint64_t most, uint64_t *number);

/* Takes a number with an optional `-` off a text. No where there is none, or where it doesn't fit 64 bits. */
bool take_signed(struct text *text, int64_t *number);

#endif
