/* Coins. The node puts the account of who signed a call before what was signed:

       SENDER TO AMOUNT      pays

   An account is 20 bytes, an amount 8 bytes, the lowest first. An account that has never paid or been paid has 100.
   The output is what SENDER has then. */

#include "rows.h"

TABLE(coin);

enum { AT_FIRST = 100 };

static u64 coins_at(const struct key *account) {
    u64 coins = AT_FIRST;
    u32 length = storage_read(account, &coins, sizeof coins);
    if (length != ABSENT && length != sizeof coins) {
        REVERT("the account has no coins");
    }
    return coins;
}

void contract(const u8 *input, u32 length) {
    struct cursor cursor = cursor_over(input, length);
    struct key sender, to;
    ROW_KEY(&sender, coin, *take_account(&cursor));
    ROW_KEY(&to, coin, *take_account(&cursor));
    u64 amount = take_u64(&cursor);
    take_end(&cursor);

    u64 left, sum;
    if (__builtin_sub_overflow(coins_at(&sender), amount, &left)) {
        REVERT("too few coins");
    }
    storage_write(&sender, &left, sizeof left);
    if (__builtin_add_overflow(coins_at(&to), amount, &sum)) {
        REVERT("too many coins");
    }
    storage_write(&to, &sum, sizeof sum);
    left = coins_at(&sender);
    return_output(&left, sizeof left);
}
