#ifndef STDIO_H
#define STDIO_H

#include <stddef.h>

typedef struct file FILE;
extern FILE *stdin, *stdout, *stderr;

FILE *fopen(const char *name, const char *mode);
int ferror(FILE *file);
int fflush(FILE *file);
int fprintf(FILE *file, const char *form, ...);
int printf(const char *form, ...);
size_t fwrite(const void *bytes, size_t size, size_t count, FILE *file);
long getline(char **line, size_t *size, FILE *file);

#endif
