// Bytes in memory. Words are copied and set at once where they lie at multiples of four.
#include <stdbool.h>
#include <stdint.h>
#include <string.h>

typedef uint32_t __attribute__((may_alias)) word;

// Whether an address is that of a word.
static bool is_word(const void *at) {
    return (uintptr_t)at % sizeof(word) == 0;
}

// The first byte that is `it`, or NULL.
void *memchr(const void *bytes, int it, size_t size) {
    for (const unsigned char *at = bytes; size > 0; at++, size--)
        if (*at == (unsigned char)it)
            return (void *)at;
    return NULL;
}

// Less than, equal to or greater than 0, as the first byte that differs says.
int memcmp(const void *left, const void *right, size_t size) {
    const unsigned char *a = left, *b = right;
    for (; size > 0; a++, b++, size--)
        if (*a != *b)
            return *a - *b;
    return 0;
}

// Copies bytes from the first to the last, which may be done where `to` lies before `from`.
static void *copy_upwards(void *to, const void *from, size_t size) {
    char *a = to;
    const char *b = from;
    if (is_word(a) && is_word(b))
        for (; size >= sizeof(word); a += sizeof(word), b += sizeof(word), size -= sizeof(word))
            *(word *)a = *(const word *)b;
    while (size-- > 0)
        *a++ = *b++;
    return to;
}

// Copies bytes.
void *memcpy(void *restrict to, const void *restrict from, size_t size) {
    return copy_upwards(to, from, size);
}

// Copies bytes of which some may be those that are written.
void *memmove(void *to, const void *from, size_t size) {
    char *a = to;
    const char *b = from;
    if ((uintptr_t)a - (uintptr_t)b >= size)        // `to` lies before `from`, or behind all that is read
        return copy_upwards(to, from, size);
    while (size-- > 0)
        a[size] = b[size];
    return to;
}

// Sets each byte to `it`.
void *memset(void *to, int it, size_t size) {
    unsigned char *a = to;
    if (is_word(a))
        for (; size >= sizeof(word); a += sizeof(word), size -= sizeof(word))
            *(word *)a = (unsigned char)it * 0x01010101u;
    while (size-- > 0)
        *a++ = it;
    return to;
}
