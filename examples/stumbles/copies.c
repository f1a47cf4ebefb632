/* Calls memcpy, memmove, memset and memcmp at small distances and lengths, and returns 01 if each
   did what loops of bytes do. */

#include "contract.h"

enum { ROOM = 40 };

static u8 found[ROOM];
static u8 wanted[ROOM];

static u8 start_of(u32 at) { return at * 41; }

static void clear(void) {
    for (u32 at = 0; at < ROOM; at++) {
        found[at] = wanted[at] = start_of(at);
    }
}

/* Of the first so many bytes: -1, 0 or 1. */
static int order(const u8 *a, const u8 *b, u32 length) {
    for (u32 at = 0; at < length; at++) {
        if (a[at] != b[at]) {
            return a[at] < b[at] ? -1 : 1;
        }
    }
    return 0;
}

static int right(u32 to, u32 from, u32 length) {
    clear();
    for (u32 at = 0; at < length; at++) {
        wanted[to + at] = start_of(from + at);
    }
    int good = memmove(found + to, found + from, length) == found + to;
    good &= order(found, wanted, ROOM) == 0;

    clear();
    for (u32 at = 0; at < length; at++) {
        wanted[20 + to + at] = start_of(from + at);
    }
    good &= memcpy(found + 20 + to, found + from, length) == found + 20 + to;
    good &= order(found, wanted, ROOM) == 0;

    clear();
    for (u32 at = 0; at < length; at++) {
        wanted[to + at] = 0xe0 + from;
    }
    good &= memset(found + to, 0xffffffe0 + from, length) == found + to;
    good &= order(found, wanted, ROOM) == 0;

    int sign = memcmp(found + to, found + from, length);
    return good & ((sign > 0) - (sign < 0) == order(found + to, found + from, length));
}

void contract(const u8 *input, u32 length) {
    u8 good = 1;
    for (u32 to = 0; to < 6; to++) {
        for (u32 from = 0; from < 6; from++) {
            for (u32 n = 0; n < 14; n++) {
                good &= right(to, from, n);
            }
        }
    }
    return_output(&good, 1);
}
