#include "forms.h"

#include <string.h>

#define NONE '-'

struct asked asked;

/* Adds a number to the list, and answers where it stands. */
static uint32_t *add_to_list(uint32_t number)
{
    uint32_t *place = &asked.list[asked.list_count++];
    *place = number;
    return place;
}

static bool take_listed(struct text *word, uint64_t most)
{
    uint64_t number;
    if (!take_number(word, most, &number))
        return false;
    add_to_list((uint32_t)number);
    return true;
}

static bool take_single(struct text *word, uint64_t most)
{
    return take_number(word, most, &asked.numbers[asked.numbers_count++]);
}

/* ---- One word for a letter of the form ---- */

static bool take_key(struct text *word)
{
    return take_single(word, UINT32_MAX) && take_letter(word, ':') && take_single(word, UINT32_MAX);
}

static void add_single(uint64_t number)
{
    asked.numbers[asked.numbers_count++] = number;
}

/* A key, or none. The number that stands for none to the library is no expression that a script can say here. */
static bool take_key_or_none(struct text *word)
{
    if (take_letter(word, NONE)) {
        add_single(GALTHUMIR_NONE);
        add_single(0);
        return true;
    }
    return take_single(word, GALTHUMIR_NONE - 1) && take_letter(word, ':') && take_single(word, UINT32_MAX);
}

static bool take_state(struct text *word, enum kind kind, bool is_made)
{
    struct text name = *word;
    if (!is_name(name) || (is_made && !can_be_made(kind, name)))
        return false;
    asked.states[asked.states_count++] = (struct named){kind, name, place_of(kind, name)};
    word->at = word->end;
    return true;
}

/* ---- Lists ---- */

static bool take_listed_key(struct text *word, uint64_t most)
{
    return take_listed(word, most) && take_letter(word, ':') && take_listed(word, most);
}

/* Takes what is between commas. Answers how many there are, or 0 where one is not of its form. */
static uint32_t take_between_commas(struct text *word, uint64_t most, bool (*take)(struct text *, uint64_t))
{
    uint32_t count = 0;
    do {
        if (!take(word, most))
            return 0;
        count++;
    } while (take_letter(word, ','));
    return count;
}

/* Takes expressions, as their count and each of them; none of nothing. */
static bool take_counted_expressions(struct text *word)
{
    uint32_t *count = add_to_list(0);
    if (is_empty(*word))
        return true;
    *count = take_between_commas(word, UINT32_MAX, take_listed);
    return *count > 0;
}

static bool take_keys(struct text *word)
{
    return take_letter(word, NONE) || take_between_commas(word, UINT32_MAX, take_listed_key) > 0;
}

static bool take_counted_keys(struct text *word)
{
    uint32_t *count = add_to_list(0);
    if (take_letter(word, NONE))
        return true;
    *count = take_between_commas(word, UINT16_MAX, take_listed_key);
    return *count > 0;
}

static bool take_class(struct text *word)
{
    return take_listed(word, UINT32_MAX) && take_letter(word, ':') && take_listed(word, UINT32_MAX) &&
           take_letter(word, ':') && take_counted_expressions(word);
}

static bool take_source(struct text *word)
{
    return take_listed(word, UINT32_MAX) && take_letter(word, '=') && take_counted_expressions(word);
}

static bool take_pair(struct text *word)
{
    return take_listed(word, UINT32_MAX) && take_letter(word, '=') && take_listed(word, UINT32_MAX);
}

/* ---- Forms ---- */

static bool take_by_letter(char letter, struct text *word)
{
    switch (letter) {
    case 'h': return take_single(word, UINT16_MAX);
    case 'n': return take_single(word, UINT32_MAX);
    case 'z': return take_single(word, UINT64_MAX);
    case 'i': return take_signed(word, &asked.offset);
    case 'k': return take_key(word);
    case 't': return take_key_or_none(word);
    case 'G': return take_state(word, GROUP, true);
    case 'g': return take_state(word, GROUP, false);
    case 'O': return take_state(word, ORDERINGS, true);
    case 'o': return take_state(word, ORDERINGS, false);
    case 'M': return take_state(word, MAPPING, true);
    case 'm': return take_state(word, MAPPING, false);
    case 'D': return take_state(word, MAP, true);
    case 'd': return take_state(word, MAP, false);
    case 'K': return take_keys(word);
    case 'e': return take_listed(word, UINT32_MAX);
    case 'c': return take_class(word);
    case 'p': return take_pair(word);
    case 's': return take_source(word);
    case 'l': return take_counted_keys(word);
    default: return false;
    }
}

static bool is_whole_word(char letter, struct text word)
{
    return take_by_letter(letter, &word) && is_empty(word);
}

static bool is_for_many_words(char letter)
{
    return letter == 'e' || letter == 'c' || letter == 'p' || letter == 's' || letter == 'l';
}

static void ask_nothing(void)
{
    asked.states_count = 0;
    asked.numbers_count = 0;
    asked.list_count = 0;
}

bool read_form(const char *form, struct text words)
{
    ask_nothing();
    for (struct text word = take_word(&words); !is_empty(word); word = take_word(&words)) {
        if (*form == '\0' || !is_whole_word(*form, word))
            return false;
        if (!is_for_many_words(*form))
            form++;
    }
    return *form == '\0' || is_for_many_words(*form);
}
