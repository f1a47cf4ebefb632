/* Runs sdk_functions.c on this machine: of each line RULES INPUT, both in hex, it prints the end and the output of the call. */

#include "host.h"

#include <stdio.h>

int main(void) {
    static const char *const ends[] = {"returned", "reverted", "unknown-call", "bad-length", "too-many-writes"};
    unsigned rules, byte;
    while (scanf("%x ", &rules) == 1) {
        u8 input[INPUT_LIMIT];
        u32 length = 0;
        for (int next = getchar(); next != '\n'; next = getchar()) {
            ungetc(next, stdin);
            if (scanf("%2x", &byte) == 1) {
                input[length++] = (u8)byte;
            }
        }
        set_rules(rules);
        clear_storage();
        struct result result = call_contract(input, length);
        printf("%s ", ends[result.ending]);
        for (u32 at = 0; at < result.length; at++) {
            printf("%02x", result.output[at]);
        }
        printf("%s\n", result.length == 0 ? "-" : "");
    }
    return 0;
}
