/* A contract without data. It returns its input. */

#include "contract.h"

void contract(const u8 *input, u32 length) {
    return_output(input, length);
}
