/* A contract without the start-up file: gp is 0 for it, and it has nowhere to come back to. With an
   empty input it uses data and returns; otherwise it comes back. */

#include "contract.h"

static u32 number = 7;

__attribute__((section(".text.start"))) void start(const u8 *input, u32 length) {
    if (length == 0) {
        number++;
        return_output(&number, sizeof number);
    }
}
