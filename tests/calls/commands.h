/* The commands of a script. Each makes one call of the library, or shows a state. */
#ifndef COMMANDS_H
#define COMMANDS_H

#include "text.h"

struct command {
    const char *name;
    const char *form; /* as forms.h has it */
    void (*run)(void);
};

/* The command that the words are a form of, or none. What they ask for is read then. */
const struct command *command_of(struct text words);

#endif
