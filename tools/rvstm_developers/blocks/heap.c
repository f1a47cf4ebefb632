#include "heap.h"

#include <malloc.h>
#include <stdio.h>
#include <stdlib.h>
#include <string.h>

/* What new and freed bytes hold, so that a use of them shows. */
enum { NEW_BYTE = 0xa5, FREED_BYTE = 0xdd };

struct heap heap;

uint32_t random_below(uint64_t *seed, uint32_t bound)
{
    uint64_t mixed = *seed += 0x9e3779b97f4a7c15;
    mixed = (mixed ^ mixed >> 30) * 0xbf58476d1ce4e5b9;
    mixed = (mixed ^ mixed >> 27) * 0x94d049bb133111eb;
    return (uint32_t)((mixed ^ mixed >> 31) >> 32) % bound;
}

static bool is_refused(void)
{
    static uint64_t seed;
    if (!heap.one_in || random_below(&seed, heap.one_in)) return false;
    return heap.refused = true;
}

static void count(size_t bytes)
{
    heap.bytes += bytes;
    if (heap.bytes > heap.most_bytes) heap.most_bytes = heap.bytes;
}

void *counted_malloc(size_t size)
{
    void *block = is_refused() ? NULL : malloc(size);
    if (!block) return NULL;
    memset(block, NEW_BYTE, size);
    heap.blocks++;
    count(malloc_usable_size(block));
    return block;
}

/* It always moves. */
void *counted_realloc(void *block, size_t size)
{
    size_t before = block ? malloc_usable_size(block) : 0;
    void *moved = counted_malloc(size);
    if (!moved) return NULL;
    if (block) memcpy(moved, block, before < size ? before : size);
    counted_free(block);
    return moved;
}

void counted_free(void *block)
{
    if (!block) return;
    size_t size = malloc_usable_size(block);
    memset(block, FREED_BYTE, size);
    heap.blocks--;
    heap.bytes -= size;
    free(block);
}

/* Reports at the end of a program that is linked to this, if HEAP_COUNTS is set. */
__attribute__((destructor)) static void report(void)
{
    if (getenv("HEAP_COUNTS")) fprintf(stderr, "heap: %zu bytes at most, %zu blocks left\n", heap.most_bytes, heap.blocks);
}
