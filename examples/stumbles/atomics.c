/* An atomic addition. A call runs alone, so a plain one does. */

#include "contract.h"

static u32 number;

void contract(const u8 *input, u32 length) {
#ifdef __riscv_atomic
    __atomic_fetch_add(&number, 1, __ATOMIC_SEQ_CST);
#else
    number++;
#endif
    return_output(&number, sizeof number);
}
