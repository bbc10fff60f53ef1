// Bytes and texts. A text ends at its first zero byte.
#ifndef STRING_H
#define STRING_H

#include <stddef.h>

void *memchr(const void *bytes, int it, size_t size);
int memcmp(const void *left, const void *right, size_t size);
void *memcpy(void *restrict to, const void *restrict from, size_t size);
void *memmove(void *to, const void *from, size_t size);
void *memset(void *to, int it, size_t size);

char *strcat(char *restrict to, const char *restrict from);
char *strchr(const char *text, int it);
int strcmp(const char *left, const char *right);
char *strcpy(char *restrict to, const char *restrict from);
size_t strcspn(const char *text, const char *set);
char *strdup(const char *text);
size_t strlen(const char *text);
char *strncat(char *restrict to, const char *restrict from, size_t most);
int strncmp(const char *left, const char *right, size_t most);
char *strncpy(char *restrict to, const char *restrict from, size_t size);
size_t strnlen(const char *text, size_t most);
char *strpbrk(const char *text, const char *set);
char *strrchr(const char *text, int it);
size_t strspn(const char *text, const char *set);
char *strstr(const char *text, const char *part);
char *strtok(char *restrict text, const char *restrict set);
char *strtok_r(char *restrict text, const char *restrict set, char **restrict rest);

#endif
