/* A local array of 62 KiB, which reaches down into a longest input. The input's last four bytes are returned. */

#include "contract.h"

void contract(const u8 *input, u32 length) {
    volatile u8 room[63488];
    for (u32 at = 0; at < sizeof room; at++) {
        room[at] = 0xee;
    }
    return_output(input + length - 4, 4);
}
