// Shows each part of the library at its edges. It puts the same text on any system whose `int` has
// 32 bits.
#include <ctype.h>
#include <errno.h>
#include <limits.h>
#include <stdint.h>
#include <stdio.h>
#include <stdlib.h>
#include <string.h>

// Formats of printf.
static void show_formats(void) {
    puts("formats");
    printf("[%d|%5d|%-5d|%05d|%+d|% d|%.3d|%x|%#X|%#o|%u]\n", -1, 42, 42, 42, 42, 42, 7, 48879, 48879, 8, UINT_MAX);
    printf("[%s|%8s|%-8s|%.2s|%*.*s|%c|%%]\n", "text", "text", "text", "text", 6, 3, "text", 'c');
    printf("[%hhd|%hu|%lld|%lld|%llu|%#llx]\n", 300, 65537, LLONG_MIN, LLONG_MAX, ULLONG_MAX, 0x0123456789ABCDEFULL);
    char text[8];
    int count = snprintf(text, sizeof text, "%s-%d", "seven", 12345);
    printf("[%s|%d]\n", text, count);
}

// Division, products, shifts and bits of 64 bits.
static void show_integers(void) {
    static const uint64_t numbers[] = {1, 10, 65535, 65537, 0xFFFFFFFF, 0x100000001, 0x123456789ABCDEF, UINT64_MAX};
    enum { COUNT = sizeof numbers / sizeof *numbers };
    puts("integers");
    for (int i = 0; i < COUNT; i++)
        for (int j = 0; j < COUNT; j += 3) {
            volatile uint64_t a = numbers[i], b = numbers[j];
            int64_t half = (int64_t)a / -(int64_t)(b >> 1 | 1);
            printf("%llu %llu", (unsigned long long)(a / b), (unsigned long long)(a % b));
            printf(" %lld %lld\n", (long long)half, (long long)(a * b));
        }
    volatile uint64_t bits = 0x00F0000000000300;
    volatile int by = 37;
    printf("%d %d", __builtin_clzll(bits), __builtin_ctzll(bits));
    printf(" %d %d\n", __builtin_popcountll(bits), __builtin_ctz((unsigned)bits));
    printf("%llx %llx", (unsigned long long)(bits << by), (unsigned long long)(bits >> by));
    printf(" %llx\n", (unsigned long long)((int64_t)(bits << 9) >> by));
}

// Texts and bytes.
static void show_texts(void) {
    char text[40] = "one", moved[] = "0123456789", parts[] = ",a,,bc,";
    puts("texts");
    strcat(strcat(text, " two"), " three");
    memmove(moved + 2, moved, 8);
    printf("%s %zu %d %d %s\n", text, strlen(text), strcmp("a", "b") < 0, strncmp("abc", "abd", 2), moved);
    printf("%s %s %s", strchr(text, 't'), strrchr(text, 't'), strstr(text, "o t"));
    printf(" %zu %zu\n", strspn("aab", "a"), strcspn("aab", "b"));
    for (char *part = strtok(parts, ","); part != NULL; part = strtok(NULL, ","))
        printf("<%s>", part);
    printf(" %d %d %c\n", !!isspace('\v'), !!ispunct('a'), toupper('q'));
}

// Numbers at their limits.
static void show_numbers(void) {
    static const char *const texts[] = {
        "0x7fX", "-12", " +077", "zz", "", "9999999999999999999999", "-9999999999999999999999",
    };
    puts("numbers");
    for (size_t k = 0; k < sizeof texts / sizeof *texts; k++) {
        char *end;
        errno = 0;
        long it = strtol(texts[k], &end, 0);
        if (it == LONG_MAX || it == LONG_MIN)
            printf("%s %d\n", it == LONG_MAX ? "most" : "least", errno == ERANGE);
        else
            printf("%d <%s>\n", (int)it, end);
    }
    char most[32];
    snprintf(most, sizeof most, "%lu", ULONG_MAX);
    printf("%d %d\n", strtoul(most, NULL, 10) == ULONG_MAX, strtoul("-1", NULL, 10) == ULONG_MAX);
}

// The order of numbers.
static int by_value(const void *left, const void *right) {
    const int *a = left, *b = right;
    return (*a > *b) - (*a < *b);
}

// Memory, and numbers that are sorted in it.
static void show_memory(void) {
    enum { COUNT = 40 };
    puts("memory");
    int *numbers = malloc(COUNT / 2 * sizeof *numbers);
    numbers = realloc(numbers, COUNT * sizeof *numbers);
    for (int k = 0; k < COUNT; k++)
        numbers[k] = k * 17 % COUNT - 8;
    qsort(numbers, COUNT, sizeof *numbers, by_value);
    int *found = bsearch(&(int){5}, numbers, COUNT, sizeof *numbers, by_value);
    printf("%d %d %d\n", numbers[0], numbers[COUNT - 1], (int)(found - numbers));
    char *zeros = calloc(100, 3);
    int sum = 0;
    for (int k = 0; k < 300; k++)
        sum += zeros[k];
    volatile size_t half = (size_t)-1 / 2;
    printf("%d %d %d\n", sum, malloc(half) == NULL, calloc(half, 3) == NULL);
    free(zeros);
    free(numbers);
}

int main(void) {
    show_formats();
    show_integers();
    show_texts();
    show_numbers();
    show_memory();
    exit(3);
}
