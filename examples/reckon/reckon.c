/* Works through a list of steps on one number, which begins at 0. A step is a byte, which says what to do, and an
   operand of four bytes. The contract returns the number.

   reckon.elf is made by clang, which makes a table of addresses of the switch. */

#include "numbers.h"

static u32 divided(u32 number, u32 operand) {
    if (operand == 0) {
        REVERT("the divisor is 0");
    }
    return number / operand;
}

__attribute__((noinline)) static u32 next(u32 number, u8 step, u32 operand) {
    switch (step) {
    case 0:
        return number + operand;
    case 1:
        return number - operand;
    case 2:
        return number * operand;
    case 3:
        return divided(number, operand);
    case 4:
        return number & operand;
    case 5:
        return number ^ operand;
    case 6:
        return number << (operand & 31);
    case 7:
        return number >> (operand & 31);
    default:
        REVERT("no such step");
    }
}

void contract(const u8 *input, u32 length) {
    struct cursor cursor = cursor_over(input, length);
    u32 number = 0;
    while (cursor.left != 0) {
        u8 step = take_u8(&cursor);
        number = next(number, step, take_u32(&cursor));
    }
    return_output(&number, sizeof number);
}
