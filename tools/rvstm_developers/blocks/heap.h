/*
 * A heap that counts, and that refuses at random. The archive of the library is linked to it by other names for malloc, realloc and
 * free, so that it counts the library alone.
 */
#ifndef HEAP_H
#define HEAP_H

#include <stdbool.h>
#include <stddef.h>
#include <stdint.h>

struct heap {
    size_t blocks, bytes, most_bytes; /* what is in use, and the most bytes that were */
    uint32_t one_in;                  /* about one request of so many is refused; 0: none */
    bool refused;                     /* whether one was, since the caller last made this false */
};

extern struct heap heap;

/* A number below a bound, which is not 0, from a generator of 64 bits (splitmix64). */
uint32_t random_below(uint64_t *seed, uint32_t bound);

void *counted_malloc(size_t size);
void *counted_realloc(void *block, size_t size);
void counted_free(void *block);

#endif
