/* A contract for each function of the SDK: the input's first byte is the number of the function, three more say how, and what it is given
   follows. tests/gate/sdk_functions.py says what has to come. Compiled for this machine too, where names of C's library are those of the SDK. */

#include "rows.h"
#include "sha256.h"

#ifndef __riscv
#define memcpy sdk_memcpy
#define memmove sdk_memmove
#define memset sdk_memset
#define memcmp sdk_memcmp
#endif

TABLE(T);

void *memcpy(void *to, const void *from, usize length);
void *memmove(void *to, const void *from, usize length);
void *memset(void *to, int byte, usize length);
int memcmp(const void *left, const void *right, usize length);
u64 __udivdi3(u64 number, u64 by);
u64 __umoddi3(u64 number, u64 by);
long long __divdi3(long long number, long long by);
long long __moddi3(long long number, long long by);

static const char *const tags[] = {"", "t", "a.tag.of.23.bytes......", "a tag of 64 bytes, which is as long as a block of the digest is.."};

static void numbers(const u8 *how, const u8 *from) {
    u8 out[16];
    write_u64(out + 1, read_u64(from + how[1]));
    write_u32(out + 11, read_u32(from + how[1]));
    out[0] = out[9] = out[10] = out[15] = 7;
    return_output(out, sizeof out);
}

static void cursor(const u8 *how, const u8 *from, u32 length) {
    struct cursor cursor = cursor_over(from, length);
    u8 out[40];
    u32 taken = 0;
    switch (how[1]) {
    case 0: out[0] = take_u8(&cursor); taken = 1; break;
    case 1: write_u32(out, take_u32(&cursor)); taken = 4; break;
    case 2: write_u64(out, take_u64(&cursor)); taken = 8; break;
    case 3: memcpy(out, take_key(&cursor), 32); taken = 32; break;
    case 4: memcpy(out, take_account(&cursor), 20); taken = 20; break;
    default: memcpy(out, take_bytes(&cursor, how[2]), how[2]); taken = how[2]; break;
    }
    if (how[3]) {
        take_end(&cursor);
    }
    if (cursor.at != from + taken) {
        REVERT("the cursor is at a wrong place");
    }
    write_u32(out + taken, cursor.left);
    return_output(out, taken + 4);
}

static void quotients(const u8 *from) {
    u64 one = read_u64(from), other = read_u64(from + 8), out[4];
    out[0] = __udivdi3(one, other);
    out[1] = __umoddi3(one, other);
    out[2] = (u64)__divdi3((long long)one, (long long)other);
    out[3] = (u64)__moddi3((long long)one, (long long)other);
    return_output(out, sizeof out);
}

static void digest(const u8 *how, const u8 *from, u32 length) {
    u8 out[32];
    struct sha256 hash;
    struct table_part parts[2] = {{from, how[2]}, {from + how[2], length - how[2]}};
    switch (how[1]) {
    case 0: sha256(from, length, out); break;
    case 1: table_key(tags[how[3]], from, out); break;
    case 2: table_key_of(tags[how[3]], parts, 2, out); break;
    default:
        sha256_start(&hash);
        for (u32 at = 0; at < length; at += how[2]) {
            sha256_add(&hash, from + at, length - at < how[2] ? length - at : how[2]);
        }
        sha256_finish(&hash, out);
    }
    return_output(out, sizeof out);
}

/* Copies or fills 0 to 8 bytes of a buffer of 24, or compares: what is there then. */
static void bytes(const u8 *how, const u8 *from) {
    __attribute__((aligned(4))) u8 out[9 * 28];
    for (volatile u32 count = 0; count < 9; count++) {
        u8 *buffer = out + 28 * count;
        for (u32 at = 0; at < 28; at++) {
            buffer[at] = from[at];
        }
        void *to = buffer + how[2], *answer = to;
        switch (how[1]) {
        case 0: answer = memcpy(to, from + 24 + how[3], count); break;
        case 1: answer = memmove(to, buffer + how[3], count); break;
        case 2: answer = memset(to, 0x100 + how[3], count); break;
        default: buffer[0] = (u8)((memcmp(to, buffer + how[3], count) > 0) - (memcmp(to, buffer + how[3], count) < 0));
        }
        if (answer != to) {
            REVERT("another address");
        }
    }
    return_output(out, sizeof out);
}

static void rows(const u8 *how, const u8 *from) {
    static const struct key constants[] = {TEXT_KEY(T, "a"), NUMBER_KEY(T, 0xfedcba9876543210)};
    struct key keys[3] = {constants[0], constants[1], {{~0u, ~0u, ~0u, ~0u, ~0u, ~0u, ~0u, ~0u}}};
    ROW_KEY_OF(&keys[2], T, from + how[2], how[1]);
    return_output(keys, sizeof keys);
}

/* Storage calls at a key, with lengths in how[2] and how[3], in units of 1 or 64 bytes and with 1 more. */
static void storage(const u8 *how, const u8 *key) {
    u8 out[4 + 257] = {0}, value[257];
    u32 first = (how[2] >> 1) * 64 + (how[2] & 1), second = (how[3] >> 1) * 64 + (how[3] & 1), found;
    for (u32 at = 0; at < sizeof value; at++) {
        value[at] = (u8)(at + 1);
    }
    switch (how[1]) {
    case 0: storage_write(key, value, first); break;
    case 1: storage_write(key, value, first); storage_remove(key); break;
    case 2: storage_write(key, value, first == 64 ? 8 : first); storage_add(key, read_u64(key)); second = 64; break;
    case 3: return_output(value, first);
    case 4: revert(value, first);
    case 5:
        for (u32 number = 0; number < first + 192; number++) {
            write_u32(out, number);
            how[3] == 0 ? storage_write(out, key, 1) : how[3] == 1 ? storage_remove(out) : storage_add(out, 1);
            storage_write(out, key, 0);
        }
        return;
    }
    found = storage_read(key, out + 4, second);
    write_u32(out, found);
    return_output(out, found > 252 ? 4 : found + 4);
}

void contract(const u8 *how, u32 length) {
    const u8 *from = how + 4;
    u8 out[DECIMAL_LIMIT];
    u64 quotient;
    switch (how[0]) {
    case 0: numbers(how, from); break;
    case 1: cursor(how, from, length - 4); break;
    case 2: return_output(out, write_decimal(out, read_u64(from)));
    case 3:
        quotient = (how[1] ? mul_div_up : mul_div_down)(read_u64(from), read_u64(from + 8), read_u64(from + 16));
        return_output(&quotient, sizeof quotient);
    case 4: quotients(from); break;
    case 5: digest(how, from, length - 4); break;
    case 6: bytes(how, from); break;
    case 7: rows(how, from); break;
    case 8:
        out[0] = (u8)is_same_account((const struct account *)from, (const struct account *)(from + 20));
        return_output(out, 1);
    case 9: storage(how, from); break;
    }
}
