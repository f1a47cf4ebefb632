/* SHA-256 on the machine that compiles it: make -f ../../sdk/Makefile digest-test && ./digest-test
   The vectors are NIST's for FIPS 180-4, at the lengths of its examples. */

#include "host.h"
#include "sha256.h"

#include <stdio.h>

struct vector {
    const char *name, *message, *digest;
};

static const struct vector vectors[] = {
    {"nothing", "", "e3b0c44298fc1c149afbf4c8996fb92427ae41e4649b934ca495991b7852b855"},
    {"24 bits", "abc", "ba7816bf8f01cfea414140de5dae2223b00361a396177a9cb410ff61f20015ad"},
    {"448 bits", "abcdbcdecdefdefgefghfghighijhijkijkljklmklmnlmnomnopnopq",
     "248d6a61d20638b8e5c026930c3e6039a33ce45964ff2167f6ecedd419db06c1"},
    {"896 bits",
     "abcdefghbcdefghicdefghijdefghijkefghijklfghijklmghijklmnhijklmnoijklmnopjklmnopqklmnopqrlmnopqrsmnopqrstnopqrstu",
     "cf5b16a778af8380036ce59e7b0492370b249b11e8f07a51afac45037afee9d1"},
};

static void write_hex(const u8 *digest, char *text) {
    for (u32 at = 0; at < DIGEST_LENGTH; at++) {
        sprintf(text + 2 * at, "%02x", digest[at]);
    }
}

static int is_digest(const u8 *digest, const char *wanted) {
    char text[2 * DIGEST_LENGTH + 1];
    write_hex(digest, text);
    return strcmp(text, wanted) == 0;
}

static void check_vectors(void) {
    for (u32 at = 0; at < sizeof vectors / sizeof *vectors; at++) {
        struct result result = call_contract(vectors[at].message, (u32)strlen(vectors[at].message));
        check(vectors[at].name, result.length == DIGEST_LENGTH && is_digest(result.output, vectors[at].digest));
    }
}

static void check_million(void) {
    enum { PIECE = 1000 };
    u8 piece[PIECE], digest[DIGEST_LENGTH];
    struct sha256 hash;
    memset(piece, 'a', PIECE);
    sha256_start(&hash);
    for (u32 round = 0; round < 1000; round++) {
        sha256_add(&hash, piece, PIECE);
    }
    sha256_finish(&hash, digest);
    check("a million bytes, in pieces",
          is_digest(digest, "cdc76e5c9914fb9281a1c7e284d73e67f1809a48a497200e046d39ccc7112cd0"));
}

int main(void) {
    check_vectors();
    check_million();
    return report_checks();
}
