/* Transfers with a fee. An account has 20 bytes, an amount 8 bytes, the lowest first; an absent account has 0.
   The first word of the input, 4 bytes, says what is asked:

       0 FROM TO AMOUNT      transfer: FROM pays the amount, and a fee of 2 to the pot
       1 ACCOUNT             balance
       2                     what the pot has

   The pot is a row of its own, and no account. Each transfer adds to it and to TO, and reads neither. So transfers from
   different accounts do not conflict, unless one pays from an account that an earlier one paid to. Sums wrap at 2^64: the
   author of the block sees that all accounts together have less.

   The output is the balance of the account, after a transfer that of FROM. A call has no sender: the
   author of the block may transfer. It needs rules three.

   fees.elf is made by clang, fees-gnu.elf by GCC. */

#include "rows.h"

enum { TRANSFER = 0, BALANCE = 1, POT = 2, FEE = 2 };

TABLE(acct);
TABLE(fee);

static const struct key pot = TEXT_KEY(fee, "pot");

static u64 balance_at(const struct key *key) {
    u64 amount = 0;
    u32 length = storage_read(key, &amount, sizeof amount);
    if (length != ABSENT && length != sizeof amount) {
        REVERT("the account has no amount");
    }
    return amount;
}

static u64 transfer(struct cursor *input) {
    const struct account *from = take_account(input), *to = take_account(input);
    u64 amount = take_u64(input);
    struct key payer, payee;
    take_end(input);
    ROW_KEY(&payer, acct, *from);
    ROW_KEY(&payee, acct, *to);
    u64 balance = balance_at(&payer);
    if (balance < FEE || balance - FEE < amount) {
        REVERT("the balance is too small");
    }
    balance -= amount + FEE;
    storage_write(&payer, &balance, sizeof balance);
    storage_add(&payee, amount);
    storage_add(&pot, FEE);
    return balance_at(&payer);
}

static u64 tell_balance(struct cursor *input) {
    const struct account *account = take_account(input);
    struct key key;
    take_end(input);
    ROW_KEY(&key, acct, *account);
    return balance_at(&key);
}

static u64 tell_pot(struct cursor *input) {
    take_end(input);
    return balance_at(&pot);
}

void contract(const u8 *input, u32 length) {
    struct cursor cursor = cursor_over(input, length);
    u64 answer;
    switch (take_u32(&cursor)) {
    case TRANSFER:
        answer = transfer(&cursor);
        break;
    case BALANCE:
        answer = tell_balance(&cursor);
        break;
    case POT:
        answer = tell_pot(&cursor);
        break;
    default:
        REVERT("unknown request");
    }
    return_output(&answer, sizeof answer);
}
