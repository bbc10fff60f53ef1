// Counts the words of a text, and puts those that come most often. A word is a row of letters;
// capitals are taken for small ones.
#define _POSIX_C_SOURCE 200809L         // for getline and strdup, where this is compiled for another system
#include <ctype.h>
#include <stdio.h>
#include <stdlib.h>
#include <string.h>

enum { MOST = 12 };                     // words that are put

struct word {
    char *text;
    unsigned count;
};

static struct word *words;
static size_t count, room;

// Ends the program where the heap has no more.
static void *sure(void *memory) {
    if (memory == NULL) {
        puts("no more memory");
        exit(EXIT_FAILURE);
    }
    return memory;
}

// Counts a word: the words are sorted by their texts, so that one is found by halves.
static void add(const char *text) {
    size_t low = 0, high = count;
    while (low < high) {
        size_t middle = (low + high) / 2;
        int order = strcmp(text, words[middle].text);
        if (order == 0) {
            words[middle].count++;
            return;
        }
        if (order < 0)
            high = middle;
        else
            low = middle + 1;
    }
    if (count == room) {
        room = room == 0 ? 16 : 2 * room;
        words = sure(realloc(words, room * sizeof *words));
    }
    memmove(words + low + 1, words + low, (count++ - low) * sizeof *words);
    words[low] = (struct word){sure(strdup(text)), 1};
}

// Counts the words of a line, of which it makes small letters and zero bytes.
static void add_line(char *line) {
    for (char *at = line; *at != 0;) {
        char *begin = at;
        for (; isalpha((unsigned char)*at); at++)
            *at = tolower((unsigned char)*at);
        int is_last = *at == 0;
        *at = 0;
        if (at != begin)
            add(begin);
        if (is_last)
            return;
        at++;
    }
}

// The order of two words: the one that comes more often is first, and of equal ones that which a
// dictionary has first.
static int by_count(const void *left, const void *right) {
    const struct word *a = left, *b = right;
    if (a->count != b->count)
        return a->count < b->count ? 1 : -1;
    return strcmp(a->text, b->text);
}

int main(void) {
    char *line = NULL;
    size_t size = 0;
    unsigned all = 0;
    while (getline(&line, &size, stdin) != -1)
        add_line(line);
    free(line);
    qsort(words, count, sizeof *words, by_count);
    for (size_t k = 0; k < count; k++)
        all += words[k].count;
    for (size_t k = 0; k < count && k < MOST; k++)
        printf("%5u %-10s|%.*s\n", words[k].count, words[k].text, (int)words[k].count, "####################");
    printf("%u words, %zu different ones\n", all, count);
    return 0;
}
