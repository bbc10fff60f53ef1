// Characters and lines from the console line. The process sleeps until one comes.
//
// The return key, which sends a carriage return, is a line feed. Control D is the end: nothing
// comes after it.
#include "dsmon.h"

#include <stdbool.h>
#include <stdio.h>

enum { CONTROL_D = 4 };

// The next character, or EOF.
int getchar(void) {
    static bool is_over;
    int it = 0;
    while (!is_over && (it = ds_get()) == DS_NONE)
        ds_wait();
    is_over |= it == CONTROL_D;
    return is_over ? EOF : it == '\r' ? '\n' : it;
}

// The same, from the only line there is.
int fgetc(FILE *stream) {
    (void)stream;
    return getchar();
}

// The same.
int getc(FILE *stream) {
    return fgetc(stream);
}

// Reads up to and with a line feed, at most `size` bytes with a zero byte. NULL where nothing comes
// any more.
char *fgets(char *restrict to, int size, FILE *restrict stream) {
    (void)stream;
    int length = 0, it = 0;
    while (length < size - 1 && it != '\n' && (it = getchar()) != EOF)
        to[length++] = it;
    if (size < 1 || (it == EOF && length == 0))
        return NULL;
    to[length] = 0;
    return to;
}
