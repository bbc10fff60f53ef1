// Runs the tests of the library beside the host's. The status is 1 where a check fails.
#include "tests.h"

#include "dsmon.h"

#include <string.h>
#include <sys/mman.h>

enum { PAGE = 4096, PUT = 1 << 20, PLACES = 4 };

unsigned long checks, failures;
char put_text[PUT];
size_t put_count;
jmp_buf at_exit;

static const char *coming;
static size_t coming_count;
static bool waits;

// A number below the bound, the same ones in each run.
uint32_t drawn(uint32_t below) {
    static uint64_t state = 97;
    state = state * 6364136223846793005u + 1442695040888963407u;
    return (uint32_t)(state >> 33) % below;
}

// A number of 0 to 64 bits, often one beside a power of two.
uint64_t drawn_bits(void) {
    unsigned bits = drawn(65);
    uint64_t edge = bits == 64 ? 0 : (uint64_t)1 << bits;
    uint64_t whole = (uint64_t)drawn(1u << 31) << 33 ^ (uint64_t)drawn(1u << 31) << 11 ^ drawn(1u << 11);
    return drawn(3) == 0 ? edge - 1 + drawn(3) : bits == 0 ? 0 : whole >> (64 - bits);
}

// A copy of bytes behind which nothing may be touched, in one of a few places by turns.
char *at_edge(const void *bytes, size_t size) {
    static char *places[PLACES];
    static unsigned turn;
    char **place = &places[turn++ % PLACES];
    if (*place == NULL) {
        *place = mmap(NULL, 3 * PAGE, PROT_NONE, MAP_PRIVATE | MAP_ANONYMOUS, -1, 0);
        mprotect(*place + PAGE, PAGE, PROT_READ | PROT_WRITE);
    }
    return memcpy(*place + 2 * PAGE - size, bytes, size);
}

// Keeps what is put.
void ds_put(char it) {
    if (put_count < PUT - 1)
        put_text[put_count++] = it;
}

// The next character that comes, or at times DS_NONE; then it has to be waited for.
int ds_get(void) {
    CHECK(!waits, "no wait");
    CHECK(coming_count > 0, "too much is read");
    waits = drawn(3) == 0;
    if (waits || coming_count == 0)
        return DS_NONE;
    coming_count--;
    return (unsigned char)*coming++;
}

// A wait, which is right only after DS_NONE.
void ds_wait(void) {
    CHECK(waits, "a wait while a character is there");
    waits = false;
}

// The end of a process goes back to the test.
void ds_exit(void) {
    longjmp(at_exit, 1);
}

// What comes on the line from now on.
void comes(const char *bytes, size_t size) {
    coming = bytes;
    coming_count = size;
    waits = false;
}

int main(void) {
    test_memory();
    test_strings();
    test_characters();
    test_numbers();
    test_sorting();
    test_formats();
    test_printing();
    test_heap();
    test_lines();
    test_exit();
    test_integers();
    printf("%lu checks, %lu failed\n", checks, failures);
    return failures > 0;
}
