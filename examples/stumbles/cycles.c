/* Reads the cycle counter, a CSR. */

#include "contract.h"

void contract(const u8 *input, u32 length) {
    u32 cycles;
    __asm__ volatile("rdcycle %0" : "=r"(cycles));
    return_output(&cycles, sizeof cycles);
}
