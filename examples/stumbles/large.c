/* A mebibyte of data passes the address of the input. */

#include "contract.h"

static u8 room[1 << 20];

void contract(const u8 *input, u32 length) {
    room[length] = 1;
    return_output(room, 1);
}
