/* Runs a script of calls through the library, one command a line, and prints the answers.
 *
 *     calls FILE      the script of a file
 *     calls           the script on standard input
 */
#include <stdbool.h>
#include <stddef.h>
#include <stdio.h>

#include "commands.h"
#include "states.h"
#include "text.h"

static bool asks_nothing(struct text words)
{
    return is_empty(take_word(&words));
}

static void print_as_it_stands(struct text line)
{
    printf("! ");
    fwrite(line.at, 1, text_length(line), stdout);
    printf("\n");
}

static void run_line(struct text line)
{
    struct text words = without_comment(line);
    if (asks_nothing(words))
        return;
    const struct command *command = command_of(words);
    if (command != NULL)
        command->run();
    else
        print_as_it_stands(line);
}

/* The line without what ends it. */
static struct text without_end(const char *bytes, size_t length)
{
    struct text line = {bytes, bytes + length};
    if (length > 0 && bytes[length - 1] == '\n')
        line.end--;
    return line;
}

static int fault(const char *what, const char *why)
{
    fprintf(stderr, "calls: %s %s\n", what, why);
    return 2;
}

static int run_script(FILE *script, const char *name)
{
    char *bytes = NULL;
    size_t size = 0;
    reset_states();
    for (long length = getline(&bytes, &size, script); length >= 0; length = getline(&bytes, &size, script)) {
        struct text line = without_end(bytes, (size_t)length);
        if (text_length(line) > MOST_LINE_BYTES)
            return fault(name, "has a line that is too long");
        run_line(line);
    }
    return ferror(script) ? fault(name, "can't be read") : 0;
}

static int run_file(const char *name)
{
    FILE *script = fopen(name, "r");
    return script == NULL ? fault(name, "can't be opened") : run_script(script, name);
}

int main(int count, char **words)
{
    if (count > 2)
        return fault("usage:", "calls [FILE]");
    int status = count == 2 ? run_file(words[1]) : run_script(stdin, "standard input");
    return fflush(stdout) == 0 ? status : fault("standard output", "can't be written");
}
