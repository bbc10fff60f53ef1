// A calculator: of each line that comes it puts the value, or a caret below what is wrong. Its
// status is 1 where a line was wrong.
#define _POSIX_C_SOURCE 200809L         // for getline, where this is compiled for another system
#include "expression.h"

#include <stdio.h>
#include <stdlib.h>
#include <string.h>

// Puts what a line came to. False where it is wrong.
static int put_answer(const char *line) {
    struct answer it = evaluate(line);
    if (it.fault == NULL) {
        printf("= %-20lld %#llx\n", it.value, (unsigned long long)it.value);
        return 1;
    }
    printf("%*s^ %s\n", (int)(it.at - line), "", it.fault);
    return 0;
}

int main(void) {
    char *line = NULL;
    size_t size = 0;
    unsigned count = 0, wrong = 0;
    while (getline(&line, &size, stdin) != -1) {
        line[strcspn(line, "\n")] = 0;
        if (*line == 0)
            continue;
        puts(line);
        count++;
        if (!put_answer(line))
            wrong++;
    }
    free(line);
    printf("%u lines, %u of them wrong\n", count, wrong);
    return wrong > 0 ? EXIT_FAILURE : EXIT_SUCCESS;
}
