// Memory, lines, the end of a program, and the functions that the compiler calls.
#include "tests.h"

#include <errno.h>
#include <limits.h>
#include <stdlib.h>
#include <string.h>
#include <sys/wait.h>
#include <unistd.h>

extern int lib_errno;
void *lib_malloc(size_t), *lib_calloc(size_t, size_t), *lib_realloc(void *, size_t);
void lib_free(void *);
int lib_getchar(void), lib_fgetc(FILE *), lib_getc(FILE *);
char *lib_fgets(char *, int, FILE *);
ssize_t lib_getline(char **, size_t *, FILE *);
_Noreturn void lib_exit(int), lib_abort(void);

// The heap: 16 pages of zeros.
__asm__(".bss\n.balign 4096\n.globl lib_heap, lib_heap_end\nlib_heap: .skip 65536\nlib_heap_end: .skip 4096\n.text");
extern char lib_heap[], lib_heap_end[];

enum { HELD = 60, MOST = 65536 - 2 * sizeof(size_t) };

// What is held of the heap: its bytes are all the same, and other ones than those of its
// neighbours.
static struct {
    unsigned char *at, mark;
    size_t size;
} held[HELD];

// Fills what is held.
static void mark(int k) {
    memset(held[k].at, held[k].mark = drawn(256), held[k].size);
}

// Whether bytes are as they were filled.
static bool is_marked(const unsigned char *at, size_t size, unsigned char mark) {
    for (size_t k = 0; k < size; k++)
        if (at[k] != mark)
            return false;
    return true;
}

// Whether memory lies in the heap, at a multiple of 8.
static bool is_in_heap(const void *at, size_t size) {
    return (uintptr_t)at % 8 == 0 && lib_heap <= (const char *)at && (const char *)at + size <= lib_heap_end;
}

// Takes memory where none is held.
static void take(int k) {
    held[k].size = drawn(3) == 0 ? drawn(4000) : drawn(100);
    bool is_zero = drawn(2);
    held[k].at = is_zero ? lib_calloc(held[k].size, 1) : lib_malloc(held[k].size);
    if (held[k].at == NULL)
        return;
    CHECK(is_in_heap(held[k].at, held[k].size), "%p %zu", (void *)held[k].at, held[k].size);
    CHECK(!is_zero || is_marked(held[k].at, held[k].size, 0), "%zu", held[k].size);
    mark(k);
}

// Gives what is held another size, or back.
static void change(int k) {
    size_t size = drawn(3) == 0 ? drawn(6000) : drawn(100), kept = size < held[k].size ? size : held[k].size;
    CHECK(is_marked(held[k].at, held[k].size, held[k].mark), "%zu bytes changed", held[k].size);
    if (drawn(2) || size == 0) {
        lib_free(held[k].at);
        held[k].at = NULL;
        return;
    }
    unsigned char *other = lib_realloc(held[k].at, size);
    if (other == NULL)
        return;
    CHECK(is_in_heap(other, size) && is_marked(other, kept, held[k].mark), "%zu bytes to %zu", held[k].size, size);
    held[k].at = other;
    held[k].size = size;
    mark(k);
}

// What is taken, changed and freed by turns, and the edges.
void test_heap(void) {
    for (int k = 0; k < 200000; k++) {
        int it = drawn(HELD);
        if (held[it].at == NULL)
            take(it);
        else
            change(it);
    }
    for (int k = 0; k < HELD; k++) {
        CHECK(held[k].at == NULL || is_marked(held[k].at, held[k].size, held[k].mark), "%d", k);
        lib_free(held[k].at);
    }
    lib_free(NULL);
    lib_errno = 0;
    CHECK(lib_malloc(MOST + 1) == NULL && lib_errno == ENOMEM, "more than the heap");
    CHECK(lib_malloc(SIZE_MAX) == NULL && lib_malloc(SIZE_MAX - 15) == NULL && lib_malloc(SIZE_MAX / 2) == NULL, "far more");
    lib_errno = 0;
    CHECK(lib_calloc(SIZE_MAX / 2, 3) == NULL && lib_calloc((SIZE_MAX >> 4) + 1, 16) == NULL && lib_errno == ENOMEM, "a product that goes round");
    char *one = lib_malloc(8), *two = lib_malloc(8);
    lib_free(one);
    CHECK(lib_realloc(two, MOST) == NULL && (one = lib_malloc(MOST / 2)) != NULL, "what a block could not become is free");
    lib_free(one), lib_free(two);
    char *all = lib_malloc(MOST), *none = lib_malloc(0);
    CHECK(all != NULL && none == NULL, "the whole heap");
    CHECK(lib_realloc(all, SIZE_MAX) == NULL && lib_realloc(all, MOST + 1) == NULL && lib_realloc(all, MOST) == all, "larger than the heap");
    CHECK(lib_realloc(all, 1) == all && (none = lib_malloc(0)) != NULL && lib_malloc(0) != none, "blocks of no bytes");
    CHECK(lib_realloc(all, 0) == NULL && lib_realloc(NULL, 5) != NULL, "size 0, and no block");
}

// How lines are read: by getline, by fgets into little room, or by characters.
enum how { BY_GETLINE, BY_FGETS, BY_GETC };

// What each call answered, until nothing comes any more. Of no file, the library is asked.
static size_t read_all(FILE *file, enum how how, char *said) {
    char *line = NULL, part[8];
    size_t length = 0, size = 0;
    for (;;) {
        int room = 2 + length % 5, it;
        ssize_t count;
        switch (how) {
        case BY_GETLINE:
            count = file != NULL ? getline(&line, &size, file) : lib_getline(&line, &size, NULL);
            if (count == -1)
                return length;
            CHECK((size_t)count < size && line[count] == 0, "%zd in %zu bytes", count, size);
            length += sprintf(said + length, "%zd:%.*s|", count, (int)count, line);
            break;
        case BY_FGETS:
            if ((file != NULL ? fgets(part, room, file) : lib_fgets(part, room, NULL)) == NULL)
                return length;
            length += sprintf(said + length, "%d:%s|", room, part);
            break;
        case BY_GETC:
            it = file != NULL ? getc(file) : length % 2 ? lib_getc(NULL) : lib_fgetc(NULL);
            if (it == EOF)
                return length;
            length += sprintf(said + length, "%x|", it);
        }
    }
}

// Lines that are drawn, by the host's functions of a file with these bytes, and by the library's of
// the line.
static void test_text(size_t length, enum how how) {
    static char bytes[1024], mine[1 << 14], host[1 << 14];
    for (size_t k = 0; k < length; k++)
        bytes[k] = "ab\n\xff \n"[drawn(drawn(4) ? 2 : 6)];
    FILE *file = length > 0 ? fmemopen(bytes, length, "r") : fopen("/dev/null", "r");
    size_t wanted = read_all(file, how, host);
    fclose(file);
    for (size_t k = 0; k < length; k++)
        if (bytes[k] == '\n' && drawn(2))
            bytes[k] = '\r';                    // the return key
    bytes[length] = 4;                          // control D
    comes(bytes, length + 1);
    size_t got = read_all(NULL, how, mine);
    CHECK(got == wanted && memcmp(mine, host, got) == 0, "%zu bytes by %d: %.*s, and not %.*s", length, how, (int)got, mine, (int)wanted, host);
    CHECK(lib_getchar() == EOF && lib_getchar() == EOF, "the end stays");
}

// A line that the heap has no room for, and little room.
static void test_little_room(void) {
    char part[4] = "###", *line = lib_malloc(10);
    size_t size = 10;
    comes("abcdefghijklmnopqrst\n12\n", 24);
    CHECK(lib_getline(&line, &size, NULL) == 21 && strcmp(line, "abcdefghijklmnopqrst\n") == 0 && size >= 22, "a line of one's own");
    CHECK(lib_fgets(part, 0, NULL) == NULL && *part == '#' && lib_fgets(part, 1, NULL) == part && *part == 0, "no room");
    CHECK(lib_fgets(part, 4, NULL) == part && strcmp(part, "12\n") == 0, "%s", part);
    while (lib_malloc(16) != NULL)
        continue;
    line = NULL;
    CHECK(lib_getline(&line, &size, NULL) == -1 && line == NULL && lib_errno == ENOMEM, "no more memory");
}

// Whether nothing comes any more is kept by the library, so each text has a process of its own,
// which tells its failures by its status.
void test_lines(void) {
    for (int k = 0; k < 300; k++) {
        size_t length = drawn(3) ? drawn(40) : drawn(1000);
        fflush(stdout);
        pid_t child = fork();
        if (child == 0) {
            failures = 0;
            k == 0 ? test_little_room() : test_text(length, k % 3);
            fflush(stdout);
            _exit(failures > 0);
        }
        int status;
        CHECK(waitpid(child, &status, 0) == child && status == 0, "lines %d", k);
    }
}

// What a status puts.
void test_exit(void) {
    static const struct { int status; const char *text; } cases[] = {
        {0, ""}, {1, "\nexit 1\n"}, {256, "\nexit 256\n"}, {-1, "\nexit -1\n"}, {INT_MAX, "\nexit 2147483647\n"}, {INT_MIN, "\nexit -2147483648\n"},
    };
    for (volatile size_t k = 0; k < sizeof cases / sizeof *cases; k++) {
        put_count = 0;
        if (setjmp(at_exit) == 0)
            lib_exit(cases[k].status);
        CHECK(put_count == strlen(cases[k].text) && memcmp(put_text, cases[k].text, put_count) == 0, "%d", cases[k].status);
    }
    put_count = 0;
    if (setjmp(at_exit) == 0)
        lib_abort();
    CHECK(put_count == 10 && memcmp(put_text, "\nexit 134\n", 10) == 0, "abort");
}

uint64_t lib___ashldi3(uint64_t, int), lib___lshrdi3(uint64_t, int), lib___udivdi3(uint64_t, uint64_t), lib___umoddi3(uint64_t, uint64_t);
uint64_t lib___udivmoddi4(uint64_t, uint64_t, uint64_t *), lib___bswapdi2(uint64_t);
int64_t lib___ashrdi3(int64_t, int), lib___muldi3(int64_t, int64_t), lib___negdi2(int64_t), lib___divdi3(int64_t, int64_t), lib___moddi3(int64_t, int64_t);
int64_t lib___divmoddi4(int64_t, int64_t, int64_t *);
int lib___cmpdi2(int64_t, int64_t), lib___ucmpdi2(uint64_t, uint64_t), lib___clzsi2(uint32_t), lib___clzdi2(uint64_t), lib___ctzsi2(uint32_t);
int lib___clrsbsi2(int32_t), lib___clrsbdi2(int64_t), lib___ctzdi2(uint64_t), lib___ffssi2(uint32_t), lib___ffsdi2(uint64_t), lib___popcountsi2(uint32_t), lib___popcountdi2(uint64_t);
int lib___paritysi2(uint32_t), lib___paritydi2(uint64_t);
uint32_t lib___bswapsi2(uint32_t);

// A division with and without signs.
static void test_division(uint64_t a, uint64_t b) {
    uint64_t rest;
    int64_t left;
    CHECK(lib___udivdi3(a, b) == a / b && lib___umoddi3(a, b) == a % b, "%lx %lx", a, b);
    CHECK(lib___udivmoddi4(a, b, &rest) == a / b && rest == a % b && lib___udivmoddi4(a, b, NULL) == a / b, "%lx %lx", a, b);
    if (a == (uint64_t)INT64_MIN && b == UINT64_MAX)
        return;
    CHECK(lib___divdi3(a, b) == (int64_t)a / (int64_t)b && lib___moddi3(a, b) == (int64_t)a % (int64_t)b, "%ld %ld", a, b);
    CHECK(lib___divmoddi4(a, b, &left) == (int64_t)a / (int64_t)b && left == (int64_t)a % (int64_t)b, "%ld %ld", a, b);
}

// Shifts, a product and comparisons.
static void test_other(uint64_t a, uint64_t b, int count) {
    CHECK(lib___ashldi3(a, count) == a << count && lib___lshrdi3(a, count) == a >> count && lib___ashrdi3(a, count) == (int64_t)a >> count, "%lx %d", a, count);
    CHECK(lib___muldi3(a, b) == (int64_t)(a * b) && lib___negdi2(a) == (int64_t)-a, "%lx %lx", a, b);
    CHECK(lib___ucmpdi2(a, b) == 1 + (a > b) - (a < b) && lib___cmpdi2(a, b) == 1 + ((int64_t)a > (int64_t)b) - ((int64_t)a < (int64_t)b), "%lx %lx", a, b);
}

// Bits of 64 and of 32.
static void test_bits(uint64_t it) {
    uint32_t low = it;
    CHECK(it == 0 || (lib___clzdi2(it) == __builtin_clzl(it) && lib___ctzdi2(it) == __builtin_ctzl(it)), "%lx", it);
    CHECK(low == 0 || (lib___clzsi2(low) == __builtin_clz(low) && lib___ctzsi2(low) == __builtin_ctz(low)), "%x", low);
    CHECK(lib___ffsdi2(it) == __builtin_ffsl(it) && lib___ffssi2(low) == __builtin_ffs(low), "%lx", it);
    CHECK(lib___clrsbdi2(it) == __builtin_clrsbl(it) && lib___clrsbsi2(low) == __builtin_clrsb(low), "%lx", it);
    CHECK(lib___popcountdi2(it) == __builtin_popcountl(it) && lib___popcountsi2(low) == __builtin_popcount(low), "%lx", it);
    CHECK(lib___paritydi2(it) == __builtin_parityl(it) && lib___paritysi2(low) == __builtin_parity(low), "%lx", it);
    CHECK(lib___bswapdi2(it) == __builtin_bswap64(it) && lib___bswapsi2(low) == __builtin_bswap32(low), "%lx", it);
}

// Numbers at their edges, each with each, and numbers that are drawn.
void test_integers(void) {
    static const uint64_t edges[] = {0, 1, 2, 10, 0xFFFF, 0x10000, 0x10001, 0x7FFFFFFF, 0x80000000, 0xFFFFFFFF, 0x100000000, 0x100000001, INT64_MAX,
                                     (uint64_t)INT64_MIN, (uint64_t)INT64_MIN + 1, UINT64_MAX - 1, UINT64_MAX};
    size_t count = sizeof edges / sizeof *edges;
    for (size_t k = 0; k < 300000 + count * count; k++) {
        uint64_t a = k < count * count ? edges[k / count] : drawn_bits(), b = k < count * count ? edges[k % count] : drawn_bits();
        if (b != 0)
            test_division(a, b);
        test_other(a, b, k % 64);
        test_bits(a);
    }
}
