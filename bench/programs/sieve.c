/* Counts the primes below 60,000 by a sieve, as often as the input says (4 bytes, little-endian). */

#include "contract.h"

enum { LIMIT = 60000 };

static u8 struck[LIMIT];

void contract(const u8 *input, u32 length) {
    u32 times = *(const u32 *)input;
    u32 primes = 0;
    for (u32 round = 0; round < times; round++) {
        primes = 0;
        for (u32 n = 0; n < LIMIT; n++) {
            struck[n] = 0;
        }
        for (u32 n = 2; n < LIMIT; n++) {
            if (!struck[n]) {
                primes++;
                for (u32 m = 2 * n; m < LIMIT; m += n) {
                    struck[m] = 1;
                }
            }
        }
    }
    return_output(&primes, sizeof primes);
}
