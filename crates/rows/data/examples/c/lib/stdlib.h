// Memory, numbers, sorting, and the end of a program.
#ifndef STDLIB_H
#define STDLIB_H

#include <stddef.h>

#define EXIT_SUCCESS 0
#define EXIT_FAILURE 1

void *calloc(size_t count, size_t size);
void free(void *block);
void *malloc(size_t size);
void *realloc(void *block, size_t size);

int abs(int it);
int atoi(const char *text);
long atol(const char *text);
long labs(long it);
long strtol(const char *restrict text, char **restrict end, int base);
unsigned long strtoul(const char *restrict text, char **restrict end, int base);

void *bsearch(const void *key, const void *items, size_t count, size_t size,
              int (*compare)(const void *, const void *));
void qsort(void *items, size_t count, size_t size, int (*compare)(const void *, const void *));

_Noreturn void abort(void);
_Noreturn void exit(int status);

#endif
