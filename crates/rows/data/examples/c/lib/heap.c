// Memory from the heap: pages of zeros behind the data, which dsmon.ld reserves for a program that
// has `malloc`.
//
// The heap is a row of blocks, each with a head before its bytes. The first that is large enough is
// taken, and what it has too much becomes a free block. Free blocks that follow each other become
// one when they are come upon.
#include <errno.h>
#include <stdbool.h>
#include <stdlib.h>
#include <string.h>

struct head {
    size_t size;                        // of the block with its head, a multiple of the head's size
    size_t is_taken;
};

extern struct head heap[], heap_end[];

// The block behind a block.
static struct head *behind(struct head *it) {
    return (struct head *)((char *)it + it->size);
}

// The size of a block that has so many bytes, or 0 where the heap has fewer.
static size_t size_for(size_t bytes) {
    if (bytes > (size_t)((char *)heap_end - (char *)heap))
        return 0;
    return (bytes + 2 * sizeof(struct head) - 1) / sizeof(struct head) * sizeof(struct head);
}

// The free blocks that follow a block become a part of it.
static void join(struct head *it) {
    while (behind(it) < heap_end && !behind(it)->is_taken)
        it->size += behind(it)->size;
}

// A block keeps so many bytes, and the others become a free block.
static void cut(struct head *it, size_t size) {
    size_t left = it->size - size;
    if (left == 0)
        return;
    it->size = size;
    *behind(it) = (struct head){.size = left};
}

// Memory of so many bytes, whatever they are, or NULL. Its address is a multiple of 8.
void *malloc(size_t bytes) {
    size_t size = size_for(bytes);
    struct head *it = heap;
    if (it < heap_end && it->size == 0)
        it->size = (char *)heap_end - (char *)heap;
    for (; size != 0 && it < heap_end; it = behind(it)) {
        if (it->is_taken)
            continue;
        join(it);
        if (it->size < size)
            continue;
        cut(it, size);
        it->is_taken = true;
        return it + 1;
    }
    errno = ENOMEM;
    return NULL;
}

// The memory may be taken again.
void free(void *block) {
    if (block != NULL)
        ((struct head *)block - 1)->is_taken = false;
}

// Memory of `count` items, all zero, or NULL.
void *calloc(size_t count, size_t size) {
    size_t bytes;
    if (__builtin_mul_overflow(count, size, &bytes)) {
        errno = ENOMEM;
        return NULL;
    }
    void *block = malloc(bytes);
    return block == NULL ? NULL : memset(block, 0, bytes);
}

// The memory with another size, perhaps elsewhere; or NULL, and it stays as it is. With size 0 it
// is freed.
void *realloc(void *block, size_t bytes) {
    if (block == NULL)
        return malloc(bytes);
    if (bytes == 0) {
        free(block);
        return NULL;
    }
    struct head *it = (struct head *)block - 1;
    size_t size = size_for(bytes), had = it->size;
    if (size != 0)
        join(it);
    if (size != 0 && size <= it->size) {
        cut(it, size);
        return block;
    }
    cut(it, had);
    void *other = malloc(bytes);
    if (other == NULL)
        return NULL;
    memcpy(other, block, had - sizeof(struct head));
    free(block);
    return other;
}
