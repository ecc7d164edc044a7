/*
 * Memory of exactly so many bytes, placed so that a step out of it does not pass: in a heap block of that size, for
 * valgrind or a sanitizer to watch, or with a page that nobody may touch right behind or right before it. A sanitizer
 * sees the test alone; the library, which is not built with one, is watched by valgrind and by the pages.
 */
#ifndef BLOCK_H
#define BLOCK_H

#define _DEFAULT_SOURCE /* MAP_ANONYMOUS; so this file is included first */
#include "check.h"

#include <stdint.h>
#include <string.h>
#include <sys/mman.h>

enum placing { HEAP, BEHIND, BEFORE };

struct block {
    uint8_t *at; /* null where length is 0 */
    size_t length;
    uint8_t *map; /* the pages that hold it, guard included */
    size_t mapped;
};

static enum placing placing;

enum { PAGE = 4096 };

static void map_block(struct block *b) {
    size_t pages = (b->length + PAGE - 1) / PAGE * PAGE;
    b->mapped = pages + PAGE;
    b->map = mmap(NULL, b->mapped, PROT_READ | PROT_WRITE, MAP_PRIVATE | MAP_ANONYMOUS, -1, 0);
    EXPECT(b->map != MAP_FAILED);
    EXPECT(mprotect(b->map + (placing == BEHIND ? pages : 0), PAGE, PROT_NONE) == 0);
    b->at = b->map + (placing == BEHIND ? pages - b->length : PAGE);
}

static struct block new_block(size_t length) {
    struct block b = {NULL, length, NULL, 0};
    if (length == 0) return b;
    if (placing == HEAP) {
        b.at = malloc(length);
        EXPECT(b.at != NULL);
    } else {
        map_block(&b);
    }
    return b;
}

/* A block with as much of the bytes as it holds; what they do not fill is 0xEE. */
static struct block block_of(size_t length, const void *bytes, size_t count) {
    struct block b = new_block(length);
    size_t copied = length < count ? length : count;
    if (copied > 0) memcpy(b.at, bytes, copied);
    if (length > copied) memset(b.at + copied, 0xEE, length - copied);
    return b;
}

/* For memory that is lent for reading only. Of the heap it stays as it is. */
static void make_read_only(struct block b) {
    if (b.map == NULL) return;
    EXPECT(mprotect(b.map + (placing == BEHIND ? 0 : PAGE), b.mapped - PAGE, PROT_READ) == 0);
}

static void free_block(struct block b) {
    if (b.map != NULL) {
        EXPECT(munmap(b.map, b.mapped) == 0);
    } else {
        free(b.at);
    }
}

#endif
