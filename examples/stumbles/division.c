/* A quotient of 64 bits, of 1,000,000,000,000 by the input's length. */

#include "contract.h"

void contract(const u8 *input, u32 length) {
    u64 quotient = 1000000000000ull / (u64)length;
    return_output(&quotient, sizeof quotient);
}
