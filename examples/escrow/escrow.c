/* An escrow: a buyer pays in for a seller, and releases the money or gets it back after a deadline. The node writes the time, in
   seconds, at the key node.clock at the beginning of each frame. The first word of the input, 4 bytes, says what is asked:

       0 CALLER DEAL SELLER AMOUNT DEADLINE    open: the caller pays the amount in, and is the buyer
       1 CALLER DEAL                           release: the buyer lets the seller have it
       2 CALLER DEAL                           refund: the buyer gets it back, if the deadline has come

   CALLER is the account that signed the call, as the node puts it there. A deal has a name of 20 bytes; amounts and times have 8
   bytes, the lowest first. It adds to accounts, so it needs rules 3. */

#include "rows.h"

enum { OPEN = 0, RELEASE = 1, REFUND = 2 };

TABLE(acct);
TABLE(deal);

static const u8 clock[KEY_LENGTH] = "node.clock";

struct deal {
    struct account buyer, seller;
    u64 amount, deadline;
};

static u64 now(void) {
    u64 seconds;
    if (storage_read(clock, &seconds, sizeof seconds) != sizeof seconds) {
        REVERT("the node wrote no time");
    }
    return seconds;
}

static void pay_in(const struct account *who, u64 amount) {
    struct key account;
    u64 balance;
    ROW_KEY(&account, acct, *who);
    if (storage_read(&account, &balance, sizeof balance) != sizeof balance || balance < amount) {
        REVERT("the balance is too small");
    }
    balance -= amount;
    storage_write(&account, &balance, sizeof balance);
}

static void open(struct cursor *input, const struct account *caller, const struct key *key) {
    struct deal deal;
    deal.buyer = *caller;
    deal.seller = *take_account(input);
    deal.amount = take_u64(input);
    deal.deadline = take_u64(input);
    take_end(input);
    if (storage_read(key, 0, 0) != ABSENT) {
        REVERT("there is such a deal");
    }
    pay_in(caller, deal.amount);
    storage_write(key, &deal, sizeof deal);
}

/* Ends a deal of the caller: pays its amount out to the seller, or to the buyer. */
static void end(const struct account *caller, const struct key *key, u32 is_refund) {
    struct deal deal;
    struct key account;
    if (storage_read(key, &deal, sizeof deal) != sizeof deal) {
        REVERT("there is no such deal");
    }
    if (memcmp(caller, &deal.buyer, sizeof deal.buyer)) {
        REVERT("the caller is not the buyer");
    }
    if (is_refund && now() < deal.deadline) {
        REVERT("the deadline has not come");
    }
    ROW_KEY(&account, acct, *(is_refund ? &deal.buyer : &deal.seller));
    storage_add(&account, deal.amount);
    storage_remove(key);
}

void contract(const u8 *input, u32 length) {
    struct cursor cursor = cursor_over(input, length);
    u32 request = take_u32(&cursor);
    const struct account *caller = take_account(&cursor);
    struct key key;
    ROW_KEY(&key, deal, *take_account(&cursor));
    switch (request) {
    case OPEN:
        open(&cursor, caller, &key);
        break;
    case RELEASE:
    case REFUND:
        take_end(&cursor);
        end(caller, &key, request == REFUND);
        break;
    default:
        REVERT("unknown request");
    }
}
