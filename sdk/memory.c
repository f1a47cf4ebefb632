/* The four functions that compilers call of their own for copies, fills and comparisons. Compile them
   with -ffreestanding: otherwise GCC turns the loop in memset into a call of memset. */

#include "contract.h"

typedef u32 __attribute__((may_alias)) word;

static int aligned(const void *a, const void *b) {
    return (((u32)a | (u32)b) & 3) == 0;
}

void *memcpy(void *to, const void *from, usize length) {
    u8 *target = to;
    const u8 *source = from;
    if (aligned(target, source)) {
        for (; length >= 4; length -= 4, target += 4, source += 4) {
            *(word *)target = *(const word *)source;
        }
    }
    for (; length > 0; length--) {
        *target++ = *source++;
    }
    return to;
}

void *memmove(void *to, const void *from, usize length) {
    u8 *target = to;
    const u8 *source = from;
    if (target <= source) {
        return memcpy(to, from, length);
    }
    while (length > 0) {
        length--;
        target[length] = source[length];
    }
    return to;
}

void *memset(void *to, int byte, usize length) {
    u8 *target = to;
    u32 four = (u8)byte * 0x01010101u;
    if (aligned(target, target)) {
        for (; length >= 4; length -= 4, target += 4) {
            *(word *)target = four;
        }
    }
    for (; length > 0; length--) {
        *target++ = byte;
    }
    return to;
}

int memcmp(const void *left, const void *right, usize length) {
    const u8 *a = left;
    const u8 *b = right;
    for (; length > 0; length--, a++, b++) {
        if (*a != *b) {
            return *a - *b;
        }
    }
    return 0;
}
