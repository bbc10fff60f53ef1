// A line of any length. It stands apart, since it brings the heap with it.
#include <stdbool.h>
#include <stdio.h>
#include <stdlib.h>

enum { LEAST = 32 };                    // bytes of a line's first memory

// Makes the memory of a line twice as large. False where the heap has no more.
static bool grow(char **line, size_t *size) {
    size_t larger = *line == NULL || *size < LEAST / 2 ? LEAST : 2 * *size;
    char *other = realloc(*line, larger);
    if (other == NULL)
        return false;
    *line = other;
    *size = larger;
    return true;
}

// Reads up to and with a line feed, into memory of `malloc` that grows. The length, or -1 where
// nothing comes any more.
ssize_t getline(char **restrict line, size_t *restrict size, FILE *restrict stream) {
    size_t length = 0;
    int it = 0;
    if (*line == NULL)
        *size = 0;
    while (it != '\n') {
        if (*size < length + 2 && !grow(line, size))
            return -1;
        if ((it = fgetc(stream)) == EOF)
            break;
        (*line)[length++] = it;
    }
    (*line)[length] = 0;
    return length == 0 ? -1 : (ssize_t)length;
}
