#include "states.h"

#include <string.h>

#define NAME_LENGTH 8

uint32_t arena[GALTHUMIR_ARENA_CELLS];
uint32_t groups[MOST_NAMES + 1][GALTHUMIR_GROUP_CELLS];
uint16_t orderings[MOST_NAMES + 1][GALTHUMIR_ORDERINGS_CELLS];
struct mapping mappings[MOST_NAMES + 1];
uint16_t maps[MOST_NAMES + 1][GALTHUMIR_MAP_CELLS];

struct name {
    size_t length;
    char letters[NAME_LENGTH];
};

static struct name names[KINDS][MOST_NAMES];
static size_t names_count[KINDS];

void reset_states(void)
{
    memset(names_count, 0, sizeof names_count);
    memset(arena, 0, sizeof arena);
    memset(orderings, 0, sizeof orderings);
    memset(maps, 0, sizeof maps);
    for (size_t place = 0; place <= MOST_NAMES; place++) {
        mappings[place].count = 0;
        galthumir_open_group(GALTHUMIR_MAX_MEMBERS, groups[place]);
    }
}

static bool is_capital(char letter)
{
    return letter >= 'A' && letter <= 'Z';
}

bool is_name(struct text word)
{
    size_t length = text_length(word);
    if (length == 0 || length > NAME_LENGTH || !is_capital(*word.at))
        return false;
    for (const char *at = word.at; at < word.end; at++)
        if (!is_capital(*at) && !is_digit(*at))
            return false;
    return true;
}

size_t place_of(enum kind kind, struct text name)
{
    size_t place = 0;
    while (place < names_count[kind] && !is_text(name, names[kind][place].letters, names[kind][place].length))
        place++;
    return place;
}

bool can_be_made(enum kind kind, struct text name)
{
    return place_of(kind, name) < MOST_NAMES;
}

void make_name(enum kind kind, struct text name)
{
    size_t place = place_of(kind, name);
    if (place < names_count[kind])
        return;
    struct name *made = &names[kind][place];
    made->length = text_length(name);
    memcpy(made->letters, name.at, made->length);
    names_count[kind]++;
}
