// Counts the letters of a text that lies in pages of the policy, at 00500000, and puts a bar for
// each letter that is there.
#include <ctype.h>
#include <stdio.h>

enum { LETTERS = 26 };

static const char *const text = (const char *)0x00500000;

int main(void) {
    unsigned counts[LETTERS] = {0}, all = 0, most = 1;
    for (const char *at = text; *at != 0; at++) {
        if (!isalpha((unsigned char)*at))
            continue;
        unsigned count = ++counts[tolower((unsigned char)*at) - 'a'];
        most = count > most ? count : most;
        all++;
    }
    for (int k = 0; k < LETTERS; k++) {
        if (counts[k] == 0)
            continue;
        printf("%c %3u %5.1u%% ", 'a' + k, counts[k], 100 * counts[k] / all);
        for (unsigned bar = 0; bar < 30 * counts[k] / most; bar++)
            putchar('*');
        putchar('\n');
    }
    printf("%u letters\n", all);
    return 0;
}
