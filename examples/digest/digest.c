/* Returns the SHA-256 digest of the input.

   digest.elf is made by clang, digest-gnu.elf by GCC. */

#include "sha256.h"

void contract(const u8 *input, u32 length) {
    u8 digest[DIGEST_LENGTH];
    sha256(input, length, digest);
    return_output(digest, sizeof digest);
}
