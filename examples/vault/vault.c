/* Payments in parts, in time. The node writes the time, in seconds, at the key node.clock at the beginning of each frame. An account
   has 20 bytes; numbers and amounts have 8 bytes, the lowest first. The first word of the input, 4 bytes, says what is asked:

       0 FROM TO NUMBER AMOUNT START END    open: FROM pays the amount into the vault, for TO
       1 TO NUMBER                          claim: TO gets what is due and was not paid yet

   What is due grows from 0 at START to the amount at END. The output of a claim is what it pays; the last one removes the payment.
   A call has no sender: the author of the block may open and claim. */

#include "rows.h"

enum { OPEN = 0, CLAIM = 1 };

TABLE(acct);
FULL_TABLE(pay); /* the payee and the number of the payment */

static const u8 clock[KEY_LENGTH] = "node.clock";

struct payment {
    u64 amount, paid, start, end;
};

static u64 now(void) {
    u64 seconds;
    if (storage_read(clock, &seconds, sizeof seconds) != sizeof seconds) {
        REVERT("the node wrote no time");
    }
    return seconds;
}

static u64 balance_at(const struct key *key) {
    u64 amount = 0;
    u32 length = storage_read(key, &amount, sizeof amount);
    if (length != ABSENT && length != sizeof amount) {
        REVERT("the account has no amount");
    }
    return amount;
}

static void open(struct cursor *input) {
    const struct account *from = take_account(input), *to = take_account(input);
    u64 number = take_u64(input);
    u64 amount = take_u64(input), start = take_u64(input), end = take_u64(input);
    struct payment payment = {amount, 0, start, end};
    struct key payer, key;
    take_end(input);
    if (start >= end || end <= now()) {
        REVERT("the time is over");
    }
    ROW_KEY(&payer, acct, *from);
    ROW_KEY(&key, pay, *to, number);
    u64 balance = balance_at(&payer);
    if (balance < amount) {
        REVERT("the balance is too small");
    }
    if (storage_read(&key, 0, 0) != ABSENT) {
        REVERT("there is such a payment");
    }
    balance -= amount;
    storage_write(&payer, &balance, sizeof balance);
    storage_write(&key, &payment, sizeof payment);
}

static u64 due(const struct payment *payment, u64 time) {
    if (time <= payment->start) {
        return 0;
    }
    return time >= payment->end ? payment->amount
                                : mul_div_down(payment->amount, time - payment->start, payment->end - payment->start);
}

static void claim(struct cursor *input) {
    const struct account *to = take_account(input);
    u64 number = take_u64(input), balance;
    struct payment payment;
    struct key payee, key;
    take_end(input);
    ROW_KEY(&payee, acct, *to);
    ROW_KEY(&key, pay, *to, number);
    if (storage_read(&key, &payment, sizeof payment) != sizeof payment) {
        REVERT("there is no such payment");
    }
    u64 paid = due(&payment, now()) - payment.paid;
    if (__builtin_add_overflow(balance_at(&payee), paid, &balance)) {
        REVERT("the balance is too large");
    }
    payment.paid += paid;
    storage_write(&payee, &balance, sizeof balance);
    if (payment.paid == payment.amount) {
        storage_remove(&key);
    } else {
        storage_write(&key, &payment, sizeof payment);
    }
    return_output(&paid, sizeof paid);
}

void contract(const u8 *input, u32 length) {
    struct cursor cursor = cursor_over(input, length);
    switch (take_u32(&cursor)) {
    case OPEN:
        open(&cursor);
        break;
    case CLAIM:
        claim(&cursor);
        break;
    default:
        REVERT("unknown request");
    }
}
