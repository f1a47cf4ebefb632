//! Accounts with amounts. The first word of the input says what is asked:
//!
//!     0 ACCOUNT AMOUNT      mint: adds the amount to the account
//!     1 FROM TO AMOUNT      pay: moves the amount
//!
//! An account is 20 bytes, an amount 8 bytes, the lowest first; an account that is absent has 0. The output is the amount
//! that ACCOUNT or FROM has then. A call has no sender: the node checks who signed it.

#![cfg_attr(not(test), no_std)]
#![cfg_attr(not(test), no_main)]

use contract::{entry, read_array, tables, write, Cursor, Key};

type Answer<T> = Result<T, &'static str>;

entry!(answer);

tables! { ACCOUNTS: Table = acct; }

fn answer(input: &[u8]) -> Answer<[u8; 8]> {
    let mut cursor = Cursor::over(input);
    let amount = match cursor.take_u32() {
        0 => mint(cursor)?,
        1 => pay(cursor)?,
        _ => return Err("unknown request"),
    };
    Ok(amount.to_le_bytes())
}

fn mint(mut input: Cursor) -> Answer<u64> {
    let (account, amount) = (take_row(&mut input), input.take_u64());
    input.take_end();
    add(&account, amount)
}

fn pay(mut input: Cursor) -> Answer<u64> {
    let (from, to, amount) = (take_row(&mut input), take_row(&mut input), input.take_u64());
    input.take_end();
    take(&from, amount)?;
    add(&to, amount)?;
    amount_at(&from)
}

/// The row of an account.
fn take_row(input: &mut Cursor) -> Key {
    ACCOUNTS.key(input.take_account())
}

fn amount_at(account: &Key) -> Answer<u64> {
    let found = read_array(account).map_err(|_| "the account has no amount")?;
    Ok(found.map_or(0, u64::from_le_bytes))
}

fn put(account: &Key, amount: u64) -> u64 {
    write(account, &amount.to_le_bytes());
    amount
}

fn add(account: &Key, amount: u64) -> Answer<u64> {
    let sum = amount_at(account)?.checked_add(amount);
    Ok(put(account, sum.ok_or("the amount is too large")?))
}

fn take(account: &Key, amount: u64) -> Answer<u64> {
    let left = amount_at(account)?.checked_sub(amount);
    Ok(put(account, left.ok_or("the amount is too small")?))
}

#[cfg(test)]
mod tests {
    use super::answer;
    use contract::host::Ledger;

    fn mint_of(account: &[u8; 20], amount: u64) -> Vec<u8> {
        [&0u32.to_le_bytes()[..], account, &amount.to_le_bytes()].concat()
    }

    #[test]
    fn mints() {
        let (mut ledger, alice) = (Ledger::new(3), [1; 20]);
        let ending = ledger.call(answer, &mint_of(&alice, 100));
        assert!(ending.has_returned(100u64.to_le_bytes()));
        let ending = ledger.call(answer, &mint_of(&alice, u64::MAX));
        assert!(ending.has_reverted("the amount is too large"));
    }
}
