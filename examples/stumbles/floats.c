/* Four times the input's length in floating-point numbers, returned as a whole number. */

#include "contract.h"

void contract(const u8 *input, u32 length) {
    u32 whole = (float)length * 4.0f;
    return_output(&whole, sizeof whole);
}
