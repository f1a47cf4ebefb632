/* Accounts with amounts. The first word of the input says what is asked:

       0 ACCOUNT AMOUNT      mint: adds the amount to the account
       1 FROM TO AMOUNT      pay: moves the amount

   An account is 20 bytes, an amount 8 bytes, the lowest first; an account that is absent has 0. The output is the
   amount that ACCOUNT or FROM has then. A call has no sender: the node checks who signed it. */

#include "rows.h"

TABLE(acct);

enum { MINT = 0, PAY = 1 };

static u64 amount_at(const struct key *account) {
    u64 amount = 0;
    u32 length = storage_read(account, &amount, sizeof amount);
    if (length != ABSENT && length != sizeof amount) {
        REVERT("the account has no amount");
    }
    return amount;
}

static u64 put(const struct key *account, u64 amount) {
    storage_write(account, &amount, sizeof amount);
    return amount;
}

static u64 add(const struct key *account, u64 amount) {
    u64 sum;
    if (__builtin_add_overflow(amount_at(account), amount, &sum)) {
        REVERT("the amount is too large");
    }
    return put(account, sum);
}

static u64 take(const struct key *account, u64 amount) {
    u64 left;
    if (__builtin_sub_overflow(amount_at(account), amount, &left)) {
        REVERT("the amount is too small");
    }
    return put(account, left);
}

static u64 mint(struct cursor *input) {
    struct key account;
    ROW_KEY(&account, acct, *take_account(input));
    u64 amount = take_u64(input);
    take_end(input);
    return add(&account, amount);
}

static u64 pay(struct cursor *input) {
    struct key from, to;
    ROW_KEY(&from, acct, *take_account(input));
    ROW_KEY(&to, acct, *take_account(input));
    u64 amount = take_u64(input);
    take_end(input);
    take(&from, amount);
    add(&to, amount);
    return amount_at(&from);
}

void contract(const u8 *input, u32 length) {
    struct cursor cursor = cursor_over(input, length);
    u64 amount;
    switch (take_u32(&cursor)) {
    case MINT:
        amount = mint(&cursor);
        break;
    case PAY:
        amount = pay(&cursor);
        break;
    default:
        REVERT("unknown request");
    }
    return_output(&amount, sizeof amount);
}
