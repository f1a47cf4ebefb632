/* Numbers in inputs, values and outputs. The lowest byte comes first, at any address. The compiler turns
   __builtin_memcpy into loads and stores; a call of memcpy would cost about 80 gas. */

#ifndef NUMBERS_H
#define NUMBERS_H

#include "contract.h"

static inline u32 read_u32(const void *bytes) {
    u32 number;
    __builtin_memcpy(&number, bytes, sizeof number);
    return number;
}

static inline u64 read_u64(const void *bytes) {
    u64 number;
    __builtin_memcpy(&number, bytes, sizeof number);
    return number;
}

static inline void write_u32(void *bytes, u32 number) {
    __builtin_memcpy(bytes, &number, sizeof number);
}

static inline void write_u64(void *bytes, u64 number) {
    __builtin_memcpy(bytes, &number, sizeof number);
}

/* A place in an input, and how many bytes follow from there on. Each call below takes what is there and
   moves past it; if too few are left, the contract reverts. */
struct cursor {
    const u8 *at;
    u32 left;
};

static inline struct cursor cursor_over(const u8 *input, u32 length) {
    struct cursor cursor = {input, length};
    return cursor;
}

static inline const u8 *take_bytes(struct cursor *cursor, u32 count) {
    const u8 *taken = cursor->at;
    if (cursor->left < count) {
        REVERT("the input is too short");
    }
    cursor->at += count;
    cursor->left -= count;
    return taken;
}

static inline u8 take_u8(struct cursor *cursor) {
    return *take_bytes(cursor, 1);
}

static inline u32 take_u32(struct cursor *cursor) {
    return read_u32(take_bytes(cursor, 4));
}

static inline u64 take_u64(struct cursor *cursor) {
    return read_u64(take_bytes(cursor, 8));
}

static inline const u8 *take_key(struct cursor *cursor) {
    return take_bytes(cursor, KEY_LENGTH);
}

/* Reverts if bytes are left. */
static inline void take_end(const struct cursor *cursor) {
    if (cursor->left != 0) {
        REVERT("the input is too long");
    }
}

/* The most digits that write_decimal writes. */
enum { DECIMAL_LIMIT = 20 };

/* Writes the number in decimal, and answers how many digits it has, at most DECIMAL_LIMIT. */
static inline u32 write_decimal(void *to, u64 number) {
    u8 digits[DECIMAL_LIMIT];
    u32 start = DECIMAL_LIMIT;
    do {
        digits[--start] = (u8)('0' + number % 10);
        number /= 10;
    } while (number != 0);
    memcpy(to, digits + start, DECIMAL_LIMIT - start);
    return DECIMAL_LIMIT - start;
}

/* The product of two numbers, divided by a third one. Reverts if the divisor is 0, or if the result is 2^64 or more. The product
   has 128 bits, so it does not overflow. It costs 400 to 600 gas. */
__attribute__((noinline, unused)) static u64 mul_div(u64 one, u64 other, u64 divisor, int rounds_up) {
    u64 lowest = (u64)(u32)one * (u32)other, highest = (one >> 32) * (other >> 32);
    u64 middle = (one >> 32) * (u32)other + (lowest >> 32), more = (u64)(u32)one * (other >> 32) + (u32)middle;
    u64 low = more << 32 | (u32)lowest, left = highest + (middle >> 32) + (more >> 32), quotient = 0;
    u32 shift = 0;
    if (divisor == 0) {
        REVERT("division by zero");
    }
    if (left >= divisor) {
        REVERT("the quotient is too large");
    }
    /* Long division by digits of 16 bits (Knuth, The Art of Computer Programming, 4.3.1, algorithm D): the divisor is shifted until
       its highest bit is set, and then a guess of a digit by its highest 16 bits is too large by 2 at most. */
    for (u32 step = 32; step != 0; step /= 2) {
        if (divisor >> (64 - step) == 0) {
            divisor <<= step;
            shift += step;
        }
    }
    if (shift != 0) {
        left = left << shift | low >> (64 - shift);
        low <<= shift;
    }
    for (u32 place = 0; place < 4; place++) {
        u32 guess = (u32)(left >> 32) / (u32)(divisor >> 48), lowest_left = (u32)(left << 16) | (u32)(low >> 48);
        guess = guess > 0xffff ? 0xffff : guess;
        u64 taken = (u64)guess * (u32)divisor;
        u64 high_left = (left >> 16) - (u64)guess * (u32)(divisor >> 32) - (taken >> 32) - (lowest_left < (u32)taken);
        lowest_left -= (u32)taken;
        for (; high_left >> 63 != 0; guess--) {
            lowest_left += (u32)divisor;
            high_left += (divisor >> 32) + (lowest_left < (u32)divisor);
        }
        left = high_left << 32 | lowest_left;
        low <<= 16;
        quotient = quotient << 16 | guess;
    }
    if (rounds_up && left != 0 && ++quotient == 0) {
        REVERT("the quotient is too large");
    }
    return quotient;
}

/* As mul_div, rounded down: what somebody gets. */
static inline u64 mul_div_down(u64 one, u64 other, u64 divisor) {
    return mul_div(one, other, divisor, 0);
}

/* As mul_div, rounded up: what somebody owes. */
static inline u64 mul_div_up(u64 one, u64 other, u64 divisor) {
    return mul_div(one, other, divisor, 1);
}

#endif
