// Packs texts by lz4's quick and by its thorough compressor, and unpacks blocks. Each text is unpacked
// again. What comes of them is put as counts and sums.
#include <lz4.h>
#include <lz4hc.h>
#include <stdint.h>
#include <stdio.h>
#include <string.h>

#include "items.h"

enum { MOST = 0xF000, QUICK = 0 };              // bytes of a text; the level of the quick compressor
static const int levels[] = {QUICK, LZ4HC_CLEVEL_MIN, LZ4HC_CLEVEL_DEFAULT, LZ4HC_CLEVEL_MAX};

static char packed[LZ4_COMPRESSBOUND(MOST)];
static char text[MOST];

// A sum of bytes in which their order counts.
static uint32_t sum_of(const char *bytes, int size) {
    uint32_t sum = 2166136261;
    for (int k = 0; k < size; k++)
        sum = (sum ^ (uint8_t)bytes[k]) * 16777619;
    return sum;
}

// Unpacks a block, and says what it had; of one that is damaged only that, since where that is noticed
// depends on the size of a pointer.
static void unpack(const char *block, int size) {
    int count = LZ4_decompress_safe(block, text, size, MOST);
    if (count < 0)
        printf("block of %d: damaged\n", size);
    else
        printf("block of %d: %d bytes, %08x\n", size, count, (unsigned)sum_of(text, count));
}

static void there_and_back(const char *from, int size, int level) {
    int count = level == QUICK ? LZ4_compress_default(from, packed, size, sizeof packed) : LZ4_compress_HC(from, packed, size, sizeof packed, level);
    printf("level %d: %d of %d bytes, %08x\n", level, count, size, (unsigned)sum_of(packed, count));
    unpack(packed, count);
    printf("%s\n", memcmp(text, from, size) == 0 ? "the same" : "other bytes");
}

int main(void) {
    printf("lz4 %s\n", LZ4_versionString());
    for (const struct item *it = first_item; it->kind != END; it = next_item(it)) {
        const char *bytes = (const char *)it->bytes;
        if (it->kind == PACKED)
            unpack(bytes, it->size);
        for (unsigned k = 0; it->kind == TEXT && k < sizeof levels / sizeof *levels; k++)
            there_and_back(bytes, it->size, levels[k]);
    }
    return 0;
}
