/* Passes a limit; the input's first byte says which. */

#include "contract.h"

void contract(const u8 *input, u32 length) {
    u8 room[OUTPUT_LIMIT + 1] = {0};
    if (input[0] == 0) {
        return_output(room, OUTPUT_LIMIT + 1);
    } else if (input[0] == 1) {
        storage_write(room, room, VALUE_LIMIT + 1);
    } else if (input[0] == 2) {
        storage_read(room, room, VALUE_LIMIT + 1);
    }
    for (u32 key = 0; key <= KEYS_LIMIT; key++) {
        room[0] = key;
        room[1] = key >> 8;
        storage_write(room, room, 0);
    }
}
