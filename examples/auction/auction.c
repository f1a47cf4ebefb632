/* Auctions over accounts. An account and the name of a lot have 20 bytes, an amount 8 bytes, the lowest first; an absent account
   has 0. The first word of the input, 4 bytes, says what is asked:

       0 LOT SELLER MINIMUM      open: the first bid is at least the minimum
       1 LOT BIDDER AMOUNT       bid: the amount leaves the bidder's account, and the bid that it tops goes back to its
                                 bidder
       2 LOT                     close: the bid goes to the seller, and the auction is removed

   The output of a bid is what its bidder has left, that of a close is the bid. A call has no sender: the
   author of the block may open, bid and close.

   auction.elf is made by clang, auction-gnu.elf by GCC. */

#include "rows.h"

enum { OPEN = 0, BID = 1, CLOSE = 2 };

/* A lot and an account of one name are rows of different tables, so neither leads to the other. */
TABLE(acct);
TABLE(lot);

/* What the storage has of a lot. The bidder is zeros until there is a bid. */
struct auction {
    u64 amount;
    struct account seller, bidder;
    u64 has_bid;
};

static u64 amount_at(const struct key *key) {
    u64 amount = 0;
    u32 length = storage_read(key, &amount, sizeof amount);
    if (length != ABSENT && length != sizeof amount) {
        REVERT("the account has no amount");
    }
    return amount;
}

static void add(const struct account *account, u64 amount) {
    struct key key;
    u64 sum;
    ROW_KEY(&key, acct, *account);
    if (__builtin_add_overflow(amount_at(&key), amount, &sum)) {
        REVERT("the balance is too large");
    }
    storage_write(&key, &sum, sizeof sum);
}

static u64 take(const struct account *account, u64 amount) {
    struct key key;
    ROW_KEY(&key, acct, *account);
    u64 balance = amount_at(&key);
    if (balance < amount) {
        REVERT("the balance is too small");
    }
    balance -= amount;
    storage_write(&key, &balance, sizeof balance);
    return balance;
}

static void open(struct cursor *input) {
    const struct account *name = take_account(input), *seller = take_account(input);
    struct auction auction = {take_u64(input), *seller, {{0}}, 0};
    struct key key;
    take_end(input);
    ROW_KEY(&key, lot, *name);
    if (storage_read(&key, 0, 0) != ABSENT) {
        REVERT("the auction is open");
    }
    storage_write(&key, &auction, sizeof auction);
}

static void read_open(const struct key *key, struct auction *auction) {
    if (storage_read(key, auction, sizeof *auction) != sizeof *auction) {
        REVERT("there is no such auction");
    }
}

static u64 bid(struct cursor *input) {
    const struct account *name = take_account(input), *bidder = take_account(input);
    u64 amount = take_u64(input);
    struct key key;
    struct auction auction;
    take_end(input);
    ROW_KEY(&key, lot, *name);
    read_open(&key, &auction);
    if (amount < auction.amount || (auction.has_bid && amount == auction.amount)) {
        REVERT("the bid is too low");
    }
    if (auction.has_bid) {
        add(&auction.bidder, auction.amount);
    }
    auction.amount = amount;
    auction.bidder = *bidder;
    auction.has_bid = 1;
    storage_write(&key, &auction, sizeof auction);
    return take(bidder, amount);
}

static u64 close(struct cursor *input) {
    const struct account *name = take_account(input);
    struct key key;
    struct auction auction;
    take_end(input);
    ROW_KEY(&key, lot, *name);
    read_open(&key, &auction);
    storage_remove(&key);
    if (!auction.has_bid) {
        return 0;
    }
    add(&auction.seller, auction.amount);
    return auction.amount;
}

void contract(const u8 *input, u32 length) {
    struct cursor cursor = cursor_over(input, length);
    u64 answer;
    switch (take_u32(&cursor)) {
    case OPEN:
        open(&cursor);
        return;
    case BID:
        answer = bid(&cursor);
        break;
    case CLOSE:
        answer = close(&cursor);
        break;
    default:
        REVERT("unknown request");
    }
    return_output(&answer, sizeof answer);
}
