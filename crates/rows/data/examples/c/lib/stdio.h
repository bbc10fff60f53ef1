// Texts to and from the console line of the process. There are no files: each stream is the line.
#ifndef STDIO_H
#define STDIO_H

#include <stdarg.h>
#include <stddef.h>

typedef struct ds_line FILE;
typedef ptrdiff_t ssize_t;

#define EOF (-1)
#define stdin ((FILE *)0)
#define stdout ((FILE *)0)
#define stderr ((FILE *)0)

int fflush(FILE *stream);
int fprintf(FILE *restrict stream, const char *restrict format, ...) __attribute__((format(printf, 2, 3)));
int fputc(int it, FILE *stream);
int fputs(const char *restrict text, FILE *restrict stream);
int printf(const char *restrict format, ...) __attribute__((format(printf, 1, 2)));
int putc(int it, FILE *stream);
int putchar(int it);
int puts(const char *text);
int snprintf(char *restrict to, size_t size, const char *restrict format, ...) __attribute__((format(printf, 3, 4)));
int sprintf(char *restrict to, const char *restrict format, ...) __attribute__((format(printf, 2, 3)));
int vfprintf(FILE *restrict stream, const char *restrict format, va_list values) __attribute__((format(printf, 2, 0)));
int vprintf(const char *restrict format, va_list values) __attribute__((format(printf, 1, 0)));
int vsnprintf(char *restrict to, size_t size, const char *restrict format, va_list values)
    __attribute__((format(printf, 3, 0)));

int fgetc(FILE *stream);
char *fgets(char *restrict to, int size, FILE *restrict stream);
int getc(FILE *stream);
int getchar(void);
ssize_t getline(char **restrict line, size_t *restrict size, FILE *restrict stream);

#endif
