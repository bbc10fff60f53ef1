// Packs texts by zlib's deflate, and unpacks streams by its inflate. Each text is unpacked again. What
// comes of them is put as counts and sums, and one stream as it is, in hexadecimal digits.
#include <stdio.h>
#include <stdlib.h>
#include <zlib.h>

#include "items.h"

enum { MOST = 1 << 17, PIECE = 1000 };          // bytes of a stream; bytes that go in or come out at once
enum { SHOWN = 6 };                             // the level whose stream is put

static Bytef packed[MOST];
static Bytef piece[PIECE];

static void *take(void *unused, unsigned count, unsigned size) {
    (void)unused;
    return calloc(count, size);
}

static void give_back(void *unused, void *block) {
    (void)unused;
    free(block);
}

// Packs a text, a piece at a time, and returns the size of the stream; 0 where that fails.
static unsigned pack(const struct item *text, int level, int memory, int strategy) {
    z_stream stream = {.zalloc = take, .zfree = give_back, .next_in = (Bytef *)text->bytes, .next_out = packed, .avail_out = MOST};
    int status = deflateInit2(&stream, level, Z_DEFLATED, text->option, memory, strategy);
    unsigned rest = text->size;
    while (status == Z_OK) {
        stream.avail_in = rest < PIECE ? rest : PIECE;
        rest -= stream.avail_in;
        status = deflate(&stream, rest == 0 ? Z_FINISH : Z_NO_FLUSH);
    }
    unsigned size = status == Z_STREAM_END ? stream.total_out : 0;
    printf("deflate %d %d %d %d: %d %d, %u of %u bytes, %08lx\n", (int)text->option, level, memory, strategy, status, deflateEnd(&stream), size,
           (unsigned)text->size, (unsigned long)crc32(0, packed, size));
    return size;
}

// Unpacks a stream, a piece at a time.
static void unpack(const Bytef *bytes, unsigned size, int window) {
    z_stream stream = {.zalloc = take, .zfree = give_back, .next_in = (Bytef *)bytes, .avail_in = size};
    int status = inflateInit2(&stream, window);
    unsigned long sum = crc32(0, NULL, 0), other = adler32(0, NULL, 0);
    while (status == Z_OK) {
        stream.next_out = piece;
        stream.avail_out = PIECE;
        status = inflate(&stream, Z_NO_FLUSH);
        sum = crc32(sum, piece, PIECE - stream.avail_out);
        other = adler32(other, piece, PIECE - stream.avail_out);
    }
    printf("inflate %d: %d '%s', %lu bytes of %lu, %08lx %08lx, ", window, status, stream.msg == NULL ? "" : stream.msg, stream.total_out,
           stream.total_in, sum, other);
    printf("%d\n", inflateEnd(&stream));
}

static void put_packed(unsigned size) {
    for (unsigned k = 0; k < size; k++)
        printf("%02x%s", packed[k], k % 32 == 31 || k + 1 == size ? "\n" : "");
}

// Packs a text at each level and by each strategy, and unpacks each stream again.
static void there_and_back(const struct item *text) {
    for (int level = 0; level <= 9; level++) {
        unsigned size = pack(text, level, 8, Z_DEFAULT_STRATEGY);
        unpack(packed, size, text->option);
        if (level == SHOWN)
            put_packed(size);
    }
    for (int strategy = Z_FILTERED; strategy <= Z_FIXED; strategy++)
        unpack(packed, pack(text, 6, 1 + 2 * strategy, strategy), text->option);
}

int main(void) {
    printf("zlib %s\n", zlibVersion());
    for (const struct item *it = first_item; it->kind != END; it = next_item(it)) {
        if (it->kind == TEXT)
            there_and_back(it);
        else
            unpack(it->bytes, it->size, it->option);
    }
    return 0;
}
