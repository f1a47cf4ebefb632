/* Writes to a number and returns it. With an empty input the number is const; otherwise it is not. */

#include "contract.h"

static const u32 fixed = 7;
static u32 changing = 7;

void contract(const u8 *input, u32 length) {
    volatile u32 *number = length == 0 ? (volatile u32 *)&fixed : &changing;
    *number = 8;
    u32 found = *number;
    return_output(&found, sizeof found);
}
