/* Calls tally.c on the machine that compiles it: make -f ../../sdk/Makefile tally-test && ./tally-test */

#include "host.h"

static const u8 candidate[KEY_LENGTH] = "candidate";
static const u64 most_votes = ~(u64)0;

int main(void) {
    check("a first vote", has_returned_u64(call_contract(candidate, KEY_LENGTH), 1));
    check("a second vote", has_returned_u64(call_contract(candidate, KEY_LENGTH), 2));
    check("a short input", has_reverted(call_contract(candidate, KEY_LENGTH - 1), "the input is no key"));
    check("no input", has_reverted(call_contract(candidate, 0), "the input is no key"));

    storage_write(candidate, "text", 4);
    check("a text", has_reverted(call_contract(candidate, KEY_LENGTH), "the key has no count"));
    storage_write(candidate, candidate, KEY_LENGTH);
    check("a long value", has_reverted(call_contract(candidate, KEY_LENGTH), "the key has no count"));
    storage_write(candidate, &most_votes, sizeof most_votes);
    check("too many votes", has_reverted(call_contract(candidate, KEY_LENGTH), "the count is too large"));

    u64 votes = 0;
    storage_read(candidate, &votes, sizeof votes);
    check("the count stays", votes == most_votes);
    return report_checks();
}
