/* A word of four bytes at an odd address. */

#include "contract.h"

void contract(const u8 *input, u32 length) {
    u32 word = *(const u32 *)(input + 1);
    return_output(&word, sizeof word);
}
