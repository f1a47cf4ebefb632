/* Asks that changed instructions be fetched again; a call's never change. With an input it does not
   ask, and returns the input. */

#include "contract.h"

void contract(const u8 *input, u32 length) {
    if (length == 0) {
        __asm__ volatile("fence.i");
    }
    return_output(input, length);
}
