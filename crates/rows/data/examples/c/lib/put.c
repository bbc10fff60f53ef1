// Characters and texts on the console line.
#include "dsmon.h"

#include <stdio.h>

// Puts a character.
int putchar(int it) {
    ds_put(it);
    return (unsigned char)it;
}

// The same, on the only line there is.
int fputc(int it, FILE *stream) {
    (void)stream;
    return putchar(it);
}

// The same.
int putc(int it, FILE *stream) {
    return fputc(it, stream);
}

// Puts a text.
int fputs(const char *restrict text, FILE *restrict stream) {
    (void)stream;
    for (; *text != 0; text++)
        putchar(*text);
    return 0;
}

// Puts a text and a line feed.
int puts(const char *text) {
    fputs(text, stdout);
    putchar('\n');
    return 0;
}

// Nothing is held back, so nothing is to be put.
int fflush(FILE *stream) {
    (void)stream;
    return 0;
}
