/* A number that a constructor sets; it is volatile, so that clang does not set it when it compiles.
   With an empty input it is returned as it is; otherwise the contract calls the function first. */

#include "contract.h"

static volatile u32 number = 7;

__attribute__((constructor)) static void set(void) {
    number = 8;
}

void contract(const u8 *input, u32 length) {
    if (length != 0) {
        set();
    }
    u32 found = number;
    return_output(&found, sizeof found);
}
