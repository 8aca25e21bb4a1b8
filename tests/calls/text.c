#include "text.h"

#include <string.h>

size_t text_length(struct text text)
{
    return (size_t)(text.end - text.at);
}

bool is_empty(struct text text)
{
    return text.at == text.end;
}

bool is_text(struct text text, const char *letters, size_t length)
{
    return text_length(text) == length && memcmp(text.at, letters, length) == 0;
}

bool is_digit(char letter)
{
    return letter >= '0' && letter <= '9';
}

static bool is_blank(char letter)
{
    return letter == ' ' || (letter >= '\t' && letter <= '\r');
}

struct text without_comment(struct text line)
{
    struct text kept = {line.at, line.at};
    while (kept.end < line.end && *kept.end != '#')
        kept.end++;
    return kept;
}

struct text take_word(struct text *line)
{
    while (!is_empty(*line) && is_blank(*line->at))
        line->at++;
    struct text word = {line->at, line->at};
    while (word.end < line->end && !is_blank(*word.end))
        word.end++;
    line->at = word.end;
    return word;
}

bool take_letter(struct text *text, char letter)
{
    if (is_empty(*text) || *text->at != letter)
        return false;
    text->at++;
    return true;
}

bool take_number(struct text *text, uint64_t most, uint64_t *number)
{
    if (is_empty(*text) || !is_digit(*text->at))
        return false;
    uint64_t value = 0;
    while (!is_empty(*text) && is_digit(*text->at)) {
        uint64_t digit = (uint64_t)(*text->at++ - '0');
        if (value > (most - digit) / 10)
            return false;
        value = value * 10 + digit;
    }
    *number = value;
    return true;
}

bool take_signed(struct text *text, int64_t *number)
{
    bool negative = take_letter(text, '-');
    uint64_t size;
    if (!take_number(text, (uint64_t)INT64_MAX + negative, &size))
        return false;
    if (negative && size > 0)
        *number = -(int64_t)(size - 1) - 1;
    else
        *number = (int64_t)size;
    return true;
}
