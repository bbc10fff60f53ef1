// What tools/port.py puts into pages at 00500000: items, one after the other, each with its kind, an
// option, its size and its bytes. The last one has the kind 0.
#ifndef ITEMS_H
#define ITEMS_H

#include <stdint.h>

enum { END = 0, TEXT = 1, PACKED = 2 };         // kinds: nothing more, a text to pack, what was packed

struct item {
    uint32_t kind;
    int32_t option;
    uint32_t size;
    uint8_t bytes[];
};

static const struct item *const first_item = (const struct item *)0x00500000;

// The item behind another one. Each begins at a multiple of four.
static inline const struct item *next_item(const struct item *it) {
    return (const struct item *)(it->bytes + (it->size + 3) / 4 * 4);
}

#endif
