#ifndef STRING_H
#define STRING_H

#include <stddef.h>

int memcmp(const void *left, const void *right, size_t size);
void *memcpy(void *to, const void *from, size_t size);
void *memset(void *bytes, int value, size_t size);
size_t strlen(const char *text);

#endif
