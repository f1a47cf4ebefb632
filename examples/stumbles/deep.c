/* A recursion of 4 KiB a step, as deep as the input's first byte says, whose number it returns; with
   an empty input one without an end. */

#include "contract.h"

/* The assembly keeps the room in memory, and the step below from taking the place of this one. */
static __attribute__((noinline)) u32 depth(u32 step, u32 last) {
    u8 room[4000];
    __asm__ volatile("" : : "r"(room) : "memory");
    u32 found = step == last ? last : depth(step + 1, last);
    __asm__ volatile("" : : "r"(room) : "memory");
    return found;
}

void contract(const u8 *input, u32 length) {
    u32 found = depth(0, length == 0 ? 0xffffffff : input[0]);
    return_output(&found, sizeof found);
}
