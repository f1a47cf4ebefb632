#include "rows.h"
TABLE(acct);
TABLE(B);
FULL_TABLE(pay);

/* A count of bytes that are left out, and a row: its key with a constant length, and with one known only now. */
static void keys_of_bytes(const u8 *row, u32 length) {
    struct key keys[2];
    switch (length) {
    case 28: ROW_KEY(&keys[0], pay, BYTES(row, 28)); return_output(keys, KEY_LENGTH);
    case 1: ROW_KEY(&keys[0], acct, BYTES(row, 1)); break;
    case 2: ROW_KEY(&keys[0], acct, BYTES(row, 2)); break;
    case 3: ROW_KEY(&keys[0], acct, BYTES(row, 3)); break;
    case 4: ROW_KEY(&keys[0], acct, BYTES(row, 4)); break;
    case 5: ROW_KEY(&keys[0], acct, BYTES(row, 5)); break;
    case 6: ROW_KEY(&keys[0], acct, BYTES(row, 6)); break;
    case 7: ROW_KEY(&keys[0], acct, BYTES(row, 7)); break;
    case 8: ROW_KEY(&keys[0], acct, BYTES(row, 8)); break;
    case 9: ROW_KEY(&keys[0], acct, BYTES(row, 9)); break;
    case 10: ROW_KEY(&keys[0], acct, BYTES(row, 10)); break;
    case 11: ROW_KEY(&keys[0], acct, BYTES(row, 11)); break;
    case 12: ROW_KEY(&keys[0], acct, BYTES(row, 12)); break;
    case 13: ROW_KEY(&keys[0], acct, BYTES(row, 13)); break;
    case 14: ROW_KEY(&keys[0], acct, BYTES(row, 14)); break;
    case 15: ROW_KEY(&keys[0], acct, BYTES(row, 15)); break;
    case 16: ROW_KEY(&keys[0], acct, BYTES(row, 16)); break;
    case 17: ROW_KEY(&keys[0], acct, BYTES(row, 17)); break;
    case 18: ROW_KEY(&keys[0], acct, BYTES(row, 18)); break;
    case 19: ROW_KEY(&keys[0], acct, BYTES(row, 19)); break;
    case 20: ROW_KEY(&keys[0], acct, BYTES(row, 20)); break;
    case 21: ROW_KEY(&keys[0], acct, BYTES(row, 21)); break;
    case 22: ROW_KEY(&keys[0], acct, BYTES(row, 22)); break;
    case 23: ROW_KEY(&keys[0], acct, BYTES(row, 23)); break;
    case 24: ROW_KEY(&keys[0], acct, BYTES(row, 24)); break;
    case 25: ROW_KEY(&keys[0], acct, BYTES(row, 25)); break;
    case 26: ROW_KEY(&keys[0], acct, BYTES(row, 26)); break;
    case 27: ROW_KEY(&keys[0], acct, BYTES(row, 27)); break;
    }
    ROW_KEY_OF(&keys[1], B, row, length);
    return_output(keys, sizeof keys);
}

/* Rows of several parts. */
static void keys_of_parts(const u8 *input) {
    struct key keys[4];
    const struct account *who = (const struct account *)input;
    u64 large = read_u64(input + 20);
    u32 word = (u32)large;
    __UINT16_TYPE__ half = (__UINT16_TYPE__)large;
    u8 low = (u8)large, bytes[3] = {input[0], input[1], input[2]};
    ROW_KEY(&keys[0], pay, *who, large);
    ROW_KEY(&keys[1], acct, word, *who, half);
    ROW_KEY(&keys[2], acct, low, half, bytes, large);
    ROW_KEY(&keys[3], B, low, BYTES(input, 26));
    return_output(keys, sizeof keys);
}

static const struct key constants[] = {
    TEXT_KEY(acct, "pot"), TEXT_KEY(B, "abcdefghijklmnopqrstuvwxyz0"), NUMBER_KEY(acct, 0x123456789abcdef0)};

void contract(const u8 *input, u32 length) {
    if (length == 0) {
        return_output(constants, sizeof constants);
    } else if (input[0] == 4) {
        keys_of_parts(input + 4);
    } else {
        keys_of_bytes(input + 1 + input[0], length - 1 - input[0]);
    }
}
