/* A ledger of tokens. An account has 20 bytes, an amount 8 bytes, the lowest first; an absent account has 0.
   The first word of the input, 4 bytes, says what is asked:

       0 ACCOUNT AMOUNT      mint: the account has so much more
       1 FROM TO AMOUNT      transfer
       2 ACCOUNT             balance

   The output is the balance of the account, after a transfer that of FROM. A call has no sender:
   the author of the block may mint and transfer.

   token.elf is made by clang, token-gnu.elf by GCC. */

#include "rows.h"

enum { MINT = 0, TRANSFER = 1, BALANCE = 2 };

TABLE(acct);

static u64 balance_at(const struct key *key) {
    u64 amount = 0;
    u32 length = storage_read(key, &amount, sizeof amount);
    if (length != ABSENT && length != sizeof amount) {
        REVERT("the account has no amount");
    }
    return amount;
}

static u64 add(const struct account *account, u64 amount) {
    struct key key;
    u64 sum;
    ROW_KEY(&key, acct, *account);
    if (__builtin_add_overflow(balance_at(&key), amount, &sum)) {
        REVERT("the balance is too large");
    }
    storage_write(&key, &sum, sizeof sum);
    return sum;
}

static u64 take(const struct account *account, u64 amount) {
    struct key key;
    ROW_KEY(&key, acct, *account);
    u64 balance = balance_at(&key);
    if (balance < amount) {
        REVERT("the balance is too small");
    }
    balance -= amount;
    storage_write(&key, &balance, sizeof balance);
    return balance;
}

static u64 balance_of(const struct account *account) {
    struct key key;
    ROW_KEY(&key, acct, *account);
    return balance_at(&key);
}

static u64 mint(struct cursor *input) {
    const struct account *account = take_account(input);
    u64 amount = take_u64(input);
    take_end(input);
    return add(account, amount);
}

static u64 transfer(struct cursor *input) {
    const struct account *from = take_account(input), *to = take_account(input);
    u64 amount = take_u64(input);
    take_end(input);
    take(from, amount);
    add(to, amount);
    return balance_of(from);
}

static u64 tell_balance(struct cursor *input) {
    const struct account *account = take_account(input);
    take_end(input);
    return balance_of(account);
}

void contract(const u8 *input, u32 length) {
    struct cursor cursor = cursor_over(input, length);
    u64 answer;
    switch (take_u32(&cursor)) {
    case MINT:
        answer = mint(&cursor);
        break;
    case TRANSFER:
        answer = transfer(&cursor);
        break;
    case BALANCE:
        answer = tell_balance(&cursor);
        break;
    default:
        REVERT("unknown request");
    }
    return_output(&answer, sizeof answer);
}
