/* Counts votes. The input is a candidate's key of 32 bytes; its count, 8 bytes, the lowest first, goes
   up by one and is returned. Another input reverts, and so does a key that holds no count. */

#include "contract.h"

void contract(const u8 *input, u32 length) {
    u64 votes = 0;
    if (length != KEY_LENGTH) {
        REVERT("the input is no key");
    }
    u32 found = storage_read(input, &votes, sizeof votes);
    if (found != ABSENT && found != sizeof votes) {
        REVERT("the key has no count");
    }
    if (__builtin_add_overflow(votes, 1, &votes)) {
        REVERT("the count is too large");
    }
    storage_write(input, &votes, sizeof votes);
    return_output(&votes, sizeof votes);
}
