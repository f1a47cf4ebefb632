/* An exchange of two assets over one pool. An account has 20 bytes; assets are 0 and 1, and 2 is a share of the pool. An amount has
   8 bytes, the lowest first. The first word of the input, 4 bytes, says what is asked:

       0 WHO FIRST SECOND          add: FIRST of asset 0, and as much of asset 1 as the pool has for it, SECOND at most
       1 WHO SHARES                remove: what the shares have of both assets
       2 WHO ASSET AMOUNT LEAST    swap: AMOUNT of ASSET for the other one, LEAST at least; 3 of 1,000 stay in the pool

   The output is the shares that were made, what is paid of asset 0 and 1, or what is paid. Each result is rounded in favour of the
   pool. A call has no sender: the author of the block may do all of this. */

#include "rows.h"

enum { ADD = 0, REMOVE = 1, SWAP = 2, SHARE = 2, FEE = 3, FEE_OF = 1000 };

TABLE(bal);
TABLE(pool);

static const struct key pool_key = TEXT_KEY(pool, "pool");

struct pool {
    u64 has[2];
    u64 shares;
};

static u64 sum(u64 one, u64 other) {
    u64 all;
    if (__builtin_add_overflow(one, other, &all)) {
        REVERT("the amount is too large");
    }
    return all;
}

/* Gives an account so much more, and then takes so much away. */
static void change(const struct account *who, u32 asset, u64 more, u64 less) {
    struct key key;
    u64 balance = 0;
    ROW_KEY(&key, bal, *who, asset);
    u32 length = storage_read(&key, &balance, sizeof balance);
    if (length != ABSENT && length != sizeof balance) {
        REVERT("the account has no amount");
    }
    balance = sum(balance, more);
    if (balance < less) {
        REVERT("the balance is too small");
    }
    balance -= less;
    storage_write(&key, &balance, sizeof balance);
}

static struct pool read_pool(void) {
    struct pool pool = {{0, 0}, 0};
    u32 length = storage_read(&pool_key, &pool, sizeof pool);
    if (length != ABSENT && length != sizeof pool) {
        REVERT("the pool has another form");
    }
    return pool;
}

static void add(struct cursor *input) {
    const struct account *who = take_account(input);
    u64 first = take_u64(input), second = take_u64(input), shares = first;
    struct pool pool = read_pool();
    take_end(input);
    if (pool.shares != 0) {
        u64 owed = mul_div_up(first, pool.has[1], pool.has[0]);
        if (owed > second) {
            REVERT("the second amount is too small");
        }
        second = owed;
        shares = mul_div_down(first, pool.shares, pool.has[0]);
    }
    if (shares == 0 || second == 0) {
        REVERT("the amounts are too small");
    }
    change(who, 0, 0, first);
    change(who, 1, 0, second);
    change(who, SHARE, shares, 0);
    pool = (struct pool){{sum(pool.has[0], first), sum(pool.has[1], second)}, sum(pool.shares, shares)};
    storage_write(&pool_key, &pool, sizeof pool);
    return_output(&shares, sizeof shares);
}

static void remove(struct cursor *input) {
    const struct account *who = take_account(input);
    u64 shares = take_u64(input), paid[2];
    struct pool pool = read_pool();
    take_end(input);
    if (shares > pool.shares || shares == 0) {
        REVERT("the pool has not so many shares");
    }
    change(who, SHARE, 0, shares);
    for (u32 asset = 0; asset < 2; asset++) {
        paid[asset] = mul_div_down(shares, pool.has[asset], pool.shares);
        change(who, asset, paid[asset], 0);
        pool.has[asset] -= paid[asset];
    }
    pool.shares -= shares;
    storage_write(&pool_key, &pool, sizeof pool);
    return_output(paid, sizeof paid);
}

static void swap(struct cursor *input) {
    const struct account *who = take_account(input);
    u32 from = take_u32(input), to = 1 - from;
    u64 amount = take_u64(input), least = take_u64(input);
    struct pool pool = read_pool();
    take_end(input);
    if (from > 1) {
        REVERT("unknown asset");
    }
    u64 taken = amount - mul_div_up(amount, FEE, FEE_OF);
    u64 paid = mul_div_down(taken, pool.has[to], sum(pool.has[from], taken));
    if (paid < least || paid == 0) {
        REVERT("the pool pays less");
    }
    change(who, from, 0, amount);
    change(who, to, paid, 0);
    pool.has[from] = sum(pool.has[from], amount);
    pool.has[to] -= paid;
    storage_write(&pool_key, &pool, sizeof pool);
    return_output(&paid, sizeof paid);
}

void contract(const u8 *input, u32 length) {
    struct cursor cursor = cursor_over(input, length);
    switch (take_u32(&cursor)) {
    case ADD:
        add(&cursor);
        break;
    case REMOVE:
        remove(&cursor);
        break;
    case SWAP:
        swap(&cursor);
        break;
    default:
        REVERT("unknown request");
    }
}
