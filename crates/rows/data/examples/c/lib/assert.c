// What an assertion that fails does.
#include <assert.h>
#include <stdio.h>
#include <stdlib.h>

// Puts the condition and its place, and ends the process.
void ds_assertion(const char *condition, const char *file, int line) {
    printf("%s:%d: assertion `%s' failed\n", file, line, condition);
    abort();
}
