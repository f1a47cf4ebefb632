//! An exchange of two assets over one pool, as examples/exchange/exchange.c has it in C.

#![no_std]
#![no_main]

use contract::{
    entry, mul_div_down, mul_div_up, read_array, return_output, tables, write, Account, Cursor, Key,
};

type Told<T> = Result<T, &'static str>;

const ADD: u32 = 0;
const REMOVE: u32 = 1;
const SWAP: u32 = 2;
const SHARE: u32 = 2;
const FEE: u64 = 3;
const FEE_OF: u64 = 1000;

tables! {
    BALANCES: Table = bal;
    POOLS: Table = pool;
}

const POOL: Key = POOLS.constant_key(b"pool");

struct Pool {
    has: [u64; 2],
    shares: u64,
}

impl Pool {
    fn read() -> Told<Pool> {
        let value: [u8; 24] = read_array(&POOL).map_err(|_| "the pool has another form")?.unwrap_or([0; 24]);
        let mut cursor = Cursor::over(&value);
        let has = [cursor.take_u64(), cursor.take_u64()];
        Ok(Pool { has, shares: cursor.take_u64() })
    }

    fn write(&self) {
        let value: [u8; 24] = bytes_of([self.has[0], self.has[1], self.shares]);
        write(&POOL, &value);
    }
}

/// Numbers, the lowest byte of each first. There are 8 bytes for each.
fn bytes_of<const N: usize, const BYTES: usize>(numbers: [u64; N]) -> [u8; BYTES] {
    let mut bytes = [0; BYTES];
    for (place, number) in bytes.chunks_exact_mut(8).zip(numbers) {
        place.copy_from_slice(&number.to_le_bytes());
    }
    bytes
}

fn sum(one: u64, other: u64) -> Told<u64> {
    one.checked_add(other).ok_or("the amount is too large")
}

/// Gives an account so much more, and then takes so much away.
fn change(who: Account, asset: u32, more: u64, less: u64) -> Told<()> {
    let key = BALANCES.key((who, asset));
    let found = read_array(&key).map_err(|_| "the account has no amount")?;
    let balance = sum(found.map_or(0, u64::from_le_bytes), more)?;
    let balance = balance.checked_sub(less).ok_or("the balance is too small")?;
    write(&key, &balance.to_le_bytes());
    Ok(())
}

fn add(input: &mut Cursor) -> Told<u64> {
    let who = input.take_account();
    let (first, mut second) = (input.take_u64(), input.take_u64());
    let pool = Pool::read()?;
    let mut shares = first;
    input.take_end();
    if pool.shares != 0 {
        let owed = mul_div_up(first, pool.has[1], pool.has[0]).ok_or("the quotient is too large")?;
        if owed > second {
            return Err("the second amount is too small");
        }
        second = owed;
        shares = mul_div_down(first, pool.shares, pool.has[0]).ok_or("the quotient is too large")?;
    }
    if shares == 0 || second == 0 {
        return Err("the amounts are too small");
    }
    change(who, 0, 0, first)?;
    change(who, 1, 0, second)?;
    change(who, SHARE, shares, 0)?;
    let has = [sum(pool.has[0], first)?, sum(pool.has[1], second)?];
    Pool { has, shares: sum(pool.shares, shares)? }.write();
    Ok(shares)
}

fn remove(input: &mut Cursor) -> Told<[u64; 2]> {
    let (who, shares) = (input.take_account(), input.take_u64());
    let mut pool = Pool::read()?;
    input.take_end();
    if shares > pool.shares || shares == 0 {
        return Err("the pool has not so many shares");
    }
    change(who, SHARE, 0, shares)?;
    let mut paid = [0; 2];
    for (asset, (paid, has)) in (0..).zip(paid.iter_mut().zip(&mut pool.has)) {
        *paid = mul_div_down(shares, *has, pool.shares).ok_or("the quotient is too large")?;
        change(who, asset, *paid, 0)?;
        *has -= *paid;
    }
    pool.shares -= shares;
    pool.write();
    Ok(paid)
}

fn swap(input: &mut Cursor) -> Told<u64> {
    let (who, asset) = (input.take_account(), input.take_u32());
    let (amount, least) = (input.take_u64(), input.take_u64());
    let Pool { has, shares } = Pool::read()?;
    input.take_end();
    let (from, to) = match asset {
        0 => (has[0], has[1]),
        1 => (has[1], has[0]),
        _ => return Err("unknown asset"),
    };
    let taken = amount - mul_div_up(amount, FEE, FEE_OF).ok_or("the quotient is too large")?;
    let paid = mul_div_down(taken, to, sum(from, taken)?).unwrap_or(0);
    if paid < least || paid == 0 {
        return Err("the pool pays less");
    }
    change(who, asset, 0, amount)?;
    change(who, 1 - asset, paid, 0)?;
    let (from, to) = (sum(from, amount)?, to - paid);
    Pool { has: if asset == 0 { [from, to] } else { [to, from] }, shares }.write();
    Ok(paid)
}

entry!(run);

fn run(input: &[u8]) -> Told<[u8; 8]> {
    let mut cursor = Cursor::over(input);
    match cursor.take_u32() {
        ADD => add(&mut cursor),
        REMOVE => return_output(&bytes_of::<2, 16>(remove(&mut cursor)?)),
        SWAP => swap(&mut cursor),
        _ => Err("unknown request"),
    }
    .map(u64::to_le_bytes)
}
