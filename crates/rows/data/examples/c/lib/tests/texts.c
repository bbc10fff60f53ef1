// Bytes, texts, characters, numbers and sorting beside the host's.
#include "tests.h"

#include <ctype.h>
#include <errno.h>
#include <limits.h>
#include <stdlib.h>
#include <string.h>

extern int lib_errno;
void *lib_memchr(const void *, int, size_t), *lib_memcpy(void *, const void *, size_t), *lib_memmove(void *, const void *, size_t);
void *lib_memset(void *, int, size_t);
int lib_memcmp(const void *, const void *, size_t), lib_strcmp(const char *, const char *), lib_strncmp(const char *, const char *, size_t);
char *lib_strcat(char *, const char *), *lib_strchr(const char *, int), *lib_strcpy(char *, const char *), *lib_strdup(const char *);
char *lib_strncat(char *, const char *, size_t), *lib_strncpy(char *, const char *, size_t), *lib_strpbrk(const char *, const char *);
char *lib_strrchr(const char *, int), *lib_strstr(const char *, const char *), *lib_strtok(char *, const char *);
char *lib_strtok_r(char *, const char *, char **);
size_t lib_strcspn(const char *, const char *), lib_strlen(const char *), lib_strnlen(const char *, size_t), lib_strspn(const char *, const char *);
int lib_isalnum(int), lib_isalpha(int), lib_isblank(int), lib_iscntrl(int), lib_isdigit(int), lib_isgraph(int), lib_islower(int);
int lib_isprint(int), lib_ispunct(int), lib_isspace(int), lib_isupper(int), lib_isxdigit(int), lib_tolower(int), lib_toupper(int);
int lib_abs(int), lib_atoi(const char *);
long lib_atol(const char *), lib_labs(long), lib_strtol(const char *, char **, int);
unsigned long lib_strtoul(const char *, char **, int);
void *lib_bsearch(const void *, const void *, size_t, size_t, int (*)(const void *, const void *));
void lib_qsort(void *, size_t, size_t, int (*)(const void *, const void *));
void lib_free(void *);

enum { ROOM = 64 };

// -1, 0 or 1.
static int sign(int it) {
    return (it > 0) - (it < 0);
}

// Fills bytes by few values.
static void fill(char *bytes, size_t size) {
    for (size_t k = 0; k < size; k++)
        bytes[k] = "abc\x80\xff\0a"[drawn(7)];
}

// Each function on bytes of one size, at one place of a word.
static void test_bytes(size_t size, size_t from, size_t to) {
    char bytes[ROOM], mine[ROOM], host[ROOM];
    fill(bytes, sizeof bytes);
    memcpy(mine, bytes, ROOM), memcpy(host, bytes, ROOM);
    CHECK(lib_memmove(mine + to, mine + from, size) == mine + to, "%zu", size);
    memmove(host + to, host + from, size);
    CHECK(memcmp(mine, host, ROOM) == 0, "move %zu from %zu to %zu", size, from, to);

    char *edge = at_edge(bytes + from, size);
    memcpy(mine, bytes, ROOM), memcpy(host, bytes, ROOM);
    lib_memcpy(mine + to, edge, size), memcpy(host + to, edge, size);
    CHECK(memcmp(mine, host, ROOM) == 0, "copy %zu to %zu", size, to);
    lib_memcpy(edge, bytes + to, size);
    CHECK(memcmp(edge, bytes + to, size) == 0, "copy %zu from %zu", size, to);

    int it = (int)drawn(1024) - 512;
    memcpy(mine, bytes, ROOM), memcpy(host, bytes, ROOM);
    CHECK(lib_memset(mine + to, it, size) == mine + to, "%zu", size);
    memset(host + to, it, size);
    CHECK(memcmp(mine, host, ROOM) == 0, "set %zu", size);
    lib_memset(edge, it, size);

    edge = at_edge(bytes + from, size);
    it = drawn(2) ? 'b' : 256 + 'c';
    CHECK(lib_memchr(edge, it, size) == memchr(edge, it, size), "%zu", size);
    char *other = at_edge(bytes + from, size);
    if (size > 0 && drawn(2))
        other[drawn(size)] = drawn(256);
    CHECK(sign(lib_memcmp(edge, other, size)) == sign(memcmp(edge, other, size)), "%zu", size);
}

// Bytes of each small size, at each place of a word.
void test_memory(void) {
    for (size_t size = 0; size < 24; size++)
        for (size_t from = 0; from < 20; from++)
            for (size_t to = 0; to < 20; to++)
                test_bytes(size, from, to);
}

// A text of letters, whose zero byte is the last that may be touched.
static char *drawn_text(size_t most) {
    char bytes[ROOM];
    size_t length = drawn(most + 1);
    for (size_t k = 0; k < length; k++)
        bytes[k] = "aab\x80\xff,"[drawn(6)];
    bytes[length] = 0;
    return at_edge(bytes, length + 1);
}

// The parts of a text between bytes of a set, by the library and by the host.
static void test_parts(const char *text, const char *set) {
    char mine[ROOM], host[ROOM], alone[ROOM], *mine_rest, *host_rest;
    strcpy(mine, text), strcpy(host, text), strcpy(alone, text);
    for (bool is_first = true;; is_first = false) {
        char *part = lib_strtok_r(is_first ? mine : NULL, set, &mine_rest), *wanted = strtok_r(is_first ? host : NULL, set, &host_rest);
        char *other = lib_strtok(is_first ? alone : NULL, set);
        CHECK((part == NULL) == (wanted == NULL) && (other == NULL) == (wanted == NULL), "%s %s", text, set);
        if (part == NULL || wanted == NULL || other == NULL)
            return;
        CHECK(part - mine == wanted - host && strcmp(part, wanted) == 0 && strcmp(other, wanted) == 0, "%s %s", text, set);
    }
}

// Two texts are copied or put behind one another.
static void test_copies(const char *text, const char *other) {
    char mine[ROOM], host[ROOM];
    size_t most = drawn(14);
    memset(mine, '#', ROOM), memset(host, '#', ROOM);
    CHECK(lib_strcpy(mine, text) == mine, "%s", text);
    strcpy(host, text);
    lib_strcat(mine, other), strcat(host, other);
    CHECK(memcmp(mine, host, ROOM) == 0, "%s %s", text, other);
    lib_strncat(mine, other, most), strncat(host, other, most);
    CHECK(memcmp(mine, host, ROOM) == 0, "%s %s %zu", text, other, most);
    lib_strncpy(mine, other, most), strncpy(host, other, most);
    CHECK(memcmp(mine, host, ROOM) == 0, "%s %s %zu", text, other, most);
    char *copy = lib_strdup(text);
    CHECK(copy != NULL && copy != text && strcmp(copy, text) == 0, "%s", text);
    lib_free(copy);
}

// Texts that are drawn.
void test_strings(void) {
    for (int k = 0; k < 20000; k++) {
        char *text = drawn_text(12), *other = drawn_text(drawn(2) ? 3 : 12);
        size_t most = drawn(15);
        int it = "ab\0\x80,x"[drawn(6)] + (drawn(4) ? 0 : 256);
        CHECK(lib_strlen(text) == strlen(text), "%s", text);
        CHECK(lib_strnlen(text, most) == strnlen(text, most), "%s %zu", text, most);
        CHECK(lib_strnlen(text, strlen(text)) == strlen(text), "%s", text);
        CHECK(sign(lib_strcmp(text, other)) == sign(strcmp(text, other)), "%s %s", text, other);
        CHECK(sign(lib_strncmp(text, other, most)) == sign(strncmp(text, other, most)), "%s %s %zu", text, other, most);
        CHECK(lib_strchr(text, it) == strchr(text, it), "%s %d", text, it);
        CHECK(lib_strrchr(text, it) == strrchr(text, it), "%s %d", text, it);
        CHECK(lib_strspn(text, other) == strspn(text, other), "%s %s", text, other);
        CHECK(lib_strcspn(text, other) == strcspn(text, other), "%s %s", text, other);
        CHECK(lib_strpbrk(text, other) == strpbrk(text, other), "%s %s", text, other);
        CHECK(lib_strstr(text, other) == strstr(text, other), "%s %s", text, other);
        test_parts(text, other);
        test_copies(text, other);
    }
}

// Each character, and EOF.
void test_characters(void) {
    for (int it = -1; it < 256; it++) {
        CHECK(!lib_isalnum(it) == !isalnum(it) && !lib_isalpha(it) == !isalpha(it) && !lib_isblank(it) == !isblank(it), "%d", it);
        CHECK(!lib_iscntrl(it) == !iscntrl(it) && !lib_isdigit(it) == !isdigit(it) && !lib_isgraph(it) == !isgraph(it), "%d", it);
        CHECK(!lib_islower(it) == !islower(it) && !lib_isprint(it) == !isprint(it) && !lib_ispunct(it) == !ispunct(it), "%d", it);
        CHECK(!lib_isspace(it) == !isspace(it) && !lib_isupper(it) == !isupper(it) && !lib_isxdigit(it) == !isxdigit(it), "%d", it);
        CHECK(lib_tolower(it) == tolower(it) && lib_toupper(it) == toupper(it), "%d", it);
    }
}

// One text in one base.
static void test_number(const char *text, int base) {
    char *mine, *host;
    text = at_edge(text, strlen(text) + 1);
    errno = lib_errno = 0;
    CHECK(lib_strtol(text, &mine, base) == strtol(text, &host, base), "%s %d", text, base);
    CHECK(mine == host && lib_errno == errno, "%s %d", text, base);
    errno = lib_errno = 0;
    CHECK(lib_strtoul(text, &mine, base) == strtoul(text, &host, base), "%s %d", text, base);
    CHECK(mine == host && lib_errno == errno, "%s %d", text, base);
    CHECK(lib_strtol(text, NULL, base) == strtol(text, NULL, base), "%s %d", text, base);
    CHECK(lib_atol(text) == atol(text) && lib_atoi(text) == atoi(text), "%s", text);
}

// Numbers at their edges in each base, and texts that are drawn.
void test_numbers(void) {
    static const char *const edges[] = {
        "", " ", "-", "+", "+-1", "-+1", "- 1", "0", "00", "0x", "0X", "0xg", "0x0", "-0x10", "0x-1", "0X7fFfz", "08", "07", "1e3", "\t\n\v\f\r 12 ",
        "9223372036854775807", "9223372036854775808", "-9223372036854775808", "-9223372036854775809", "18446744073709551615",
        "18446744073709551616", "-18446744073709551615", "-18446744073709551616", "99999999999999999999999999", "-99999999999999999999999999",
        "0xffffffffffffffff", "0x10000000000000000", "2147483647", "-2147483648", "4294967295", "4294967296", "zzzzzzzzzzzz", "3w5e11264sgsf",
        "3w5e11264sgsg", "-1y2p0ij32e8e7", "-1y2p0ij32e8e8", "1777777777777777777777", "2000000000000000000000", "\xff" "1", "1\xff",
    };
    for (size_t k = 0; k < sizeof edges / sizeof *edges; k++)
        for (int base = 0; base <= 36; base++)
            if (base != 1)
                test_number(edges[k], base);
    for (int k = 0; k < 30000; k++) {
        char text[32];
        size_t length = drawn(24);
        for (size_t at = 0; at < length; at++)
            text[at] = " -+0xX123789abfzZ.8888"[at < 3 ? drawn(22) : 3 + drawn(19)];
        text[length] = 0;
        test_number(text, (int[]){0, 2, 8, 10, 16, 36, 3, 35}[drawn(8)]);
    }
    for (int base = -1; base <= 37; base = base == 1 ? 37 : base + 2) {
        lib_errno = 0;
        CHECK(lib_strtol("12", NULL, base) == 0 && lib_errno == EINVAL, "%d", base);
    }
    CHECK(lib_abs(-5) == 5 && lib_abs(5) == 5 && lib_abs(INT_MIN + 1) == INT_MAX && lib_labs(LONG_MIN + 1) == LONG_MAX && lib_labs(7) == 7, "abs");
}

static size_t item_size;

// The order of all bytes of two items.
static int by_bytes(const void *left, const void *right) {
    return memcmp(left, right, item_size);
}

// No order at all.
static int hostile(const void *left, const void *right) {
    (void)left, (void)right;
    return (int)drawn(3) - 1;
}

// How often each byte comes.
static void count_bytes(const char *bytes, size_t size, unsigned counts[256]) {
    memset(counts, 0, 256 * sizeof *counts);
    for (size_t k = 0; k < size; k++)
        counts[(unsigned char)bytes[k]]++;
}

// Items that are drawn, in an order and in none.
void test_sorting(void) {
    static char bytes[1024], sorted[1024];
    for (int k = 0; k < 4000; k++) {
        item_size = 1 + drawn(16);
        size_t count = drawn(4) == 0 ? drawn(4) : drawn(1024 / item_size), size = count * item_size;
        for (size_t at = 0; at < size; at++)
            sorted[at] = bytes[at] = drawn(drawn(2) ? 3 : 256);
        char *edge = at_edge(bytes, size), key[16];
        lib_qsort(edge, count, item_size, by_bytes);
        qsort(sorted, count, item_size, by_bytes);
        CHECK(memcmp(edge, sorted, size) == 0, "%zu items of %zu", count, item_size);
        memcpy(key, count > 0 && drawn(2) ? bytes + drawn(count) * item_size : at_edge("0123456789abcdef", 16), item_size);
        char *found = lib_bsearch(key, edge, count, item_size, by_bytes);
        CHECK((found == NULL) == (bsearch(key, sorted, count, item_size, by_bytes) == NULL), "%zu", count);
        CHECK(found == NULL || ((found - edge) % item_size == 0 && memcmp(found, key, item_size) == 0), "%zu", count);
        unsigned before[256], after[256];
        count_bytes(bytes, size, before);
        edge = at_edge(bytes, size);
        lib_qsort(edge, count, item_size, hostile);
        count_bytes(edge, size, after);
        CHECK(memcmp(before, after, sizeof before) == 0, "%zu items of %zu", count, item_size);
    }
}
