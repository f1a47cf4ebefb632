/* SHA-256, FIPS 180-4. The numbers in brackets are its sections. */

#include "sha256.h"

/* [4.2.2] */
static const u32 round_constants[64] = {
    0x428a2f98, 0x71374491, 0xb5c0fbcf, 0xe9b5dba5, 0x3956c25b, 0x59f111f1, 0x923f82a4, 0xab1c5ed5,
    0xd807aa98, 0x12835b01, 0x243185be, 0x550c7dc3, 0x72be5d74, 0x80deb1fe, 0x9bdc06a7, 0xc19bf174,
    0xe49b69c1, 0xefbe4786, 0x0fc19dc6, 0x240ca1cc, 0x2de92c6f, 0x4a7484aa, 0x5cb0a9dc, 0x76f988da,
    0x983e5152, 0xa831c66d, 0xb00327c8, 0xbf597fc7, 0xc6e00bf3, 0xd5a79147, 0x06ca6351, 0x14292967,
    0x27b70a85, 0x2e1b2138, 0x4d2c6dfc, 0x53380d13, 0x650a7354, 0x766a0abb, 0x81c2c92e, 0x92722c85,
    0xa2bfe8a1, 0xa81a664b, 0xc24b8b70, 0xc76c51a3, 0xd192e819, 0xd6990624, 0xf40e3585, 0x106aa070,
    0x19a4c116, 0x1e376c08, 0x2748774c, 0x34b0bcb5, 0x391c0cb3, 0x4ed8aa4a, 0x5b9cca4f, 0x682e6ff3,
    0x748f82ee, 0x78a5636f, 0x84c87814, 0x8cc70208, 0x90befffa, 0xa4506ceb, 0xbef9a3f7, 0xc67178f2};

/* [5.3.3] */
static const u32 initial_state[8] = {0x6a09e667, 0xbb67ae85, 0x3c6ef372, 0xa54ff53a,
                                     0x510e527f, 0x9b05688c, 0x1f83d9ab, 0x5be0cd19};

enum { LENGTH_PLACE = SHA256_BLOCK - 8 }; /* of the message's length in the last block [5.1.1] */

static u32 rotate_right(u32 word, u32 bits) {
    return word >> bits | word << (32 - bits);
}

static u32 read_big_endian(const u8 *bytes) {
    return (u32)bytes[0] << 24 | (u32)bytes[1] << 16 | (u32)bytes[2] << 8 | bytes[3];
}

static void write_big_endian(u8 *bytes, u32 word) {
    for (u32 at = 0; at < 4; at++) {
        bytes[at] = (u8)(word >> (24 - 8 * at));
    }
}

/* [6.2.2, 1] */
static void make_schedule(u32 *schedule, const u8 *block) {
    for (u32 t = 0; t < 16; t++) {
        schedule[t] = read_big_endian(block + 4 * t);
    }
    for (u32 t = 16; t < 64; t++) {
        u32 w2 = schedule[t - 2], w15 = schedule[t - 15];
        u32 sigma0 = rotate_right(w15, 7) ^ rotate_right(w15, 18) ^ w15 >> 3;
        u32 sigma1 = rotate_right(w2, 17) ^ rotate_right(w2, 19) ^ w2 >> 10;
        schedule[t] = sigma1 + schedule[t - 7] + sigma0 + schedule[t - 16];
    }
}

/* [6.2.2, 2 to 4] */
static void compress(u32 *state, const u8 *block) {
    u32 schedule[64];
    u32 a = state[0], b = state[1], c = state[2], d = state[3];
    u32 e = state[4], f = state[5], g = state[6], h = state[7];
    make_schedule(schedule, block);
    for (u32 t = 0; t < 64; t++) {
        u32 sum1 = rotate_right(e, 6) ^ rotate_right(e, 11) ^ rotate_right(e, 25);
        u32 choice = (e & f) ^ (~e & g);
        u32 first = h + sum1 + choice + round_constants[t] + schedule[t];
        u32 sum0 = rotate_right(a, 2) ^ rotate_right(a, 13) ^ rotate_right(a, 22);
        u32 majority = (a & b) ^ (a & c) ^ (b & c);
        h = g, g = f, f = e, e = d + first;
        d = c, c = b, b = a, a = first + sum0 + majority;
    }
    state[0] += a, state[1] += b, state[2] += c, state[3] += d;
    state[4] += e, state[5] += f, state[6] += g, state[7] += h;
}

void sha256_start(struct sha256 *hash) {
    memcpy(hash->state, initial_state, sizeof initial_state);
    hash->length = 0;
}

void sha256_add(struct sha256 *hash, const void *bytes, u32 length) {
    const u8 *source = bytes;
    while (length > 0) {
        u32 place = hash->length % SHA256_BLOCK;
        u32 count = SHA256_BLOCK - place < length ? SHA256_BLOCK - place : length;
        memcpy(hash->block + place, source, count);
        hash->length += count;
        source += count;
        length -= count;
        if (place + count == SHA256_BLOCK) {
            compress(hash->state, hash->block);
        }
    }
}

/* The padding: a bit 1, zeros and the length in bits, up to the end of a block [5.1.1]. */
static void add_padding(struct sha256 *hash) {
    u64 bits = 8 * hash->length;
    u32 place = hash->length % SHA256_BLOCK;
    hash->block[place++] = 0x80;
    if (place > LENGTH_PLACE) {
        memset(hash->block + place, 0, SHA256_BLOCK - place);
        compress(hash->state, hash->block);
        place = 0;
    }
    memset(hash->block + place, 0, LENGTH_PLACE - place);
    write_big_endian(hash->block + LENGTH_PLACE, (u32)(bits >> 32));
    write_big_endian(hash->block + LENGTH_PLACE + 4, (u32)bits);
    compress(hash->state, hash->block);
}

void sha256_finish(struct sha256 *hash, u8 *digest) {
    add_padding(hash);
    for (u32 at = 0; at < 8; at++) {
        write_big_endian(digest + 4 * at, hash->state[at]);
    }
}

void sha256(const void *bytes, u32 length, u8 *digest) {
    struct sha256 hash;
    sha256_start(&hash);
    sha256_add(&hash, bytes, length);
    sha256_finish(&hash, digest);
}

static u32 length_of(const char *tag) {
    u32 length = 0;
    while (tag[length] != 0) {
        length++;
    }
    return length;
}

void table_key(const char *tag, const void *key, u8 *derived) {
    struct sha256 hash;
    sha256_start(&hash);
    sha256_add(&hash, tag, length_of(tag));
    sha256_add(&hash, key, KEY_LENGTH);
    sha256_finish(&hash, derived);
}

void table_key_of(const char *tag, const struct table_part *parts, u32 count, u8 *derived) {
    struct sha256 hash;
    sha256_start(&hash);
    sha256_add(&hash, "", 1);
    sha256_add(&hash, tag, length_of(tag) + 1);
    for (u32 at = 0; at < count; at++) {
        sha256_add(&hash, &parts[at].length, sizeof parts[at].length);
        sha256_add(&hash, parts[at].bytes, parts[at].length);
    }
    sha256_finish(&hash, derived);
}
