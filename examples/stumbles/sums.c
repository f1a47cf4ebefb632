/* Adds to a key, which only rules three know; a block file of format 1 is under rules one. */

#include "contract.h"

void contract(const u8 *input, u32 length) {
    storage_add(input, 1);
}
