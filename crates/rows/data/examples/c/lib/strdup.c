// A text in memory of its own. It stands apart, since it brings the heap with it.
#include <stdlib.h>
#include <string.h>

// A copy of a text, for `free`, or NULL.
char *strdup(const char *text) {
    size_t size = strlen(text) + 1;
    char *copy = malloc(size);
    return copy == NULL ? NULL : memcpy(copy, text, size);
}
