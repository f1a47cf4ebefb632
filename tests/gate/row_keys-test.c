#include "host.h"
#include <stdio.h>

int main(void) {
    for (u8 length = 1; length <= 28; length++) {
        for (u8 left = 0; left < 4; left++) {
            u8 input[32] = {left};
            for (u8 at = 0; at < length; at++) {
                input[1 + left + at] = (u8)(at + 1);
            }
            struct result result = call_contract(input, 1u + left + length);
            for (u32 at = 0; at < result.length; at++) {
                printf("%02x", result.output[at]);
            }
            printf("\n");
        }
    }
    return 0;
}
