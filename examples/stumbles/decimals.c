/* Returns the number in the input, 8 bytes, the lowest first, in decimal. */

#include "numbers.h"

void contract(const u8 *input, u32 length) {
    struct cursor cursor = cursor_over(input, length);
    u64 number = take_u64(&cursor);
    u8 text[DECIMAL_LIMIT];
    take_end(&cursor);
    return_output(text, write_decimal(text, number));
}
