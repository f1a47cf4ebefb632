/* SHA-256 (FIPS 180-4), and the keys of tables that are made by it. A block of 64 bytes
   costs about 6,000 gas. */

#ifndef SHA256_H
#define SHA256_H

#include "contract.h"

#ifdef __cplusplus
extern "C" {
#endif

enum { DIGEST_LENGTH = 32, SHA256_BLOCK = 64 };

/* A digest in the making. */
struct sha256 {
    u32 state[8];
    u64 length; /* of all bytes so far */
    u8 block[SHA256_BLOCK];
};

void sha256_start(struct sha256 *hash);
void sha256_add(struct sha256 *hash, const void *bytes, u32 length);

/* Writes the digest, DIGEST_LENGTH bytes, of what was added. */
void sha256_finish(struct sha256 *hash, u8 *digest);

/* Writes the digest of these bytes. */
void sha256(const void *bytes, u32 length, u8 *digest);

/* Writes a key that no other tag has: the digest of the tag and then of the key. A tag is the name of a
   table; one that is not used by another program begins with the program's own name. With a tag of at most 23
   bytes that is one block. Every table needs a tag: a key that comes from an input as it is may be that of any, and a row
   of sdk/rows.h whose bytes a stranger chose, too (docs/contracts.md). */
void table_key(const char *tag, const void *key, u8 *derived);

/* A part of a row that is too long for sdk/rows.h. */
struct table_part {
    const void *bytes;
    u32 length;
};

/* Writes the key of a row of several parts: the digest of a 0, the tag, a 0, and then of each part with its length before it, in
   4 bytes. No other tag or parts have this key, and no key of table_key has a tag that begins with a 0. */
void table_key_of(const char *tag, const struct table_part *parts, u32 count, u8 *derived);

#ifdef __cplusplus
}
#endif

#endif
