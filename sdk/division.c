/* Division of 64 bits, which compilers call of their own. A division by 0 has no meaning in C; here it ends too. */

typedef __UINT64_TYPE__ u64;
typedef __INT64_TYPE__ i64;
typedef __UINT32_TYPE__ u32;

/* The quotient, and what is left over. */
static u64 divide(u64 number, u64 by, u64 *left) {
    u64 taken = number >> 32;
    u32 low = (u32)number, high_quotient = 0, low_quotient = 0;
    if (by >> 32 == 0) {
        high_quotient = (u32)taken / (u32)by;
        taken = (u32)taken % (u32)by;
        if (taken == 0) {
            *left = low % (u32)by;
            return (u64)high_quotient << 32 | low / (u32)by;
        }
    }
    /* The low half is taken in bit by bit, the highest first. */
    for (int bit = 0; bit < 32; bit++) {
        int carry = (i64)taken < 0;
        taken = taken << 1 | low >> 31;
        low <<= 1;
        low_quotient <<= 1;
        if (carry || taken >= by) {
            taken -= by;
            low_quotient |= 1;
        }
    }
    *left = taken;
    return (u64)high_quotient << 32 | low_quotient;
}

static u64 size_of(i64 number) {
    return number < 0 ? -(u64)number : (u64)number;
}

u64 __udivdi3(u64 number, u64 by) {
    u64 left;
    return divide(number, by, &left);
}

u64 __umoddi3(u64 number, u64 by) {
    u64 left;
    divide(number, by, &left);
    return left;
}

i64 __divdi3(i64 number, i64 by) {
    u64 left;
    u64 quotient = divide(size_of(number), size_of(by), &left);
    return (i64)((number < 0) == (by < 0) ? quotient : -quotient);
}

i64 __moddi3(i64 number, i64 by) {
    u64 left;
    divide(size_of(number), size_of(by), &left);
    return (i64)(number < 0 ? -left : left);
}
