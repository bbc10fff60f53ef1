// Sorting and searching. A heap in place takes no memory, and its time is n log n whatever comes.
#include <stdlib.h>

// Items to be sorted.
struct items {
    char *first;
    size_t size;
    int (*compare)(const void *, const void *);
};

// Where item number k lies.
static char *item(const struct items *items, size_t k) {
    return items->first + k * items->size;
}

// Two items change places.
static void swap(const struct items *items, size_t i, size_t j) {
    char *a = item(items, i), *b = item(items, j);
    for (size_t left = items->size; left > 0; left--) {
        char held = *a;
        *a++ = *b;
        *b++ = held;
    }
}

// Lets an item sink below those of the first `count` that are greater: those below item k are 2k +
// 1 and 2k + 2.
static void sink(const struct items *items, size_t k, size_t count) {
    for (size_t below; (below = 2 * k + 1) < count; k = below) {
        if (below + 1 < count && items->compare(item(items, below), item(items, below + 1)) < 0)
            below++;
        if (items->compare(item(items, k), item(items, below)) >= 0)
            return;
        swap(items, k, below);
    }
}

// Sorts items. Equal ones may change their order.
void qsort(void *first, size_t count, size_t size, int (*compare)(const void *, const void *)) {
    struct items items = {first, size, compare};
    for (size_t k = count / 2; k > 0; k--)
        sink(&items, k - 1, count);
    while (count > 1) {
        swap(&items, 0, --count);
        sink(&items, 0, count);
    }
}

// An item of a sorted array that is equal to the key, or NULL.
void *bsearch(const void *key, const void *first, size_t count, size_t size,
              int (*compare)(const void *, const void *)) {
    const char *begin = first;
    while (count > 0) {
        const char *middle = begin + count / 2 * size;
        int order = compare(key, middle);
        if (order == 0)
            return (void *)middle;
        if (order > 0)
            begin = middle + size;
        count = order > 0 ? count - count / 2 - 1 : count / 2;
    }
    return NULL;
}
