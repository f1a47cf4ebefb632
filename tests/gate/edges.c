#include "numbers.h"

/* Writes so many keys. If a byte more is given, it reverts with all that follow. */
void contract(const u8 *input, u32 length) {
    u8 key[KEY_LENGTH] = {0};
    for (u32 number = length == 0 ? 0 : read_u32(input); number > 0; number--) {
        write_u32(key, number);
        storage_write(key, key, 4);
    }
    if (length > 4) {
        revert(input + 5, length - 5);
    }
}
