#include "expecting.h"

#include <stdio.h>
#include <string.h>

#include "galthumir.h"
#include "lent.h"

static unsigned passed, failed;

void expect(bool holds, const char *call, const char *what)
{
    if (holds) {
        passed++;
    } else {
        failed++;
        printf("%s, %s FAILED\n", call, what);
    }
}

void expect_refusal(uint32_t wanted, uint32_t returned, const char *call, const char *what)
{
    bool same = as_before();
    if (returned != wanted)
        printf("returned %u in the place of %u: ", returned, wanted);
    if (!same)
        printf("changed what was lent: ");
    expect(returned == wanted && same, call, what);
}

void expect_done(uint32_t returned, const char *call)
{
    as_before();
    expect(returned == GALTHUMIR_DONE, call, "done");
}

bool same_numbers(const uint32_t *left, const uint32_t *right, size_t count)
{
    return memcmp(left, right, count * sizeof left[0]) == 0;
}

bool same_sizes(const size_t *left, const size_t *right, size_t count)
{
    return memcmp(left, right, count * sizeof left[0]) == 0;
}

bool print_counts(void)
{
    printf("%u passed, %u failed\n", passed, failed);
    return failed == 0;
}
