//! Keys of rows, quotients of products and outputs; docs/contracts.md has the rules.

use std::collections::BTreeMap;

use contract::host::Ledger;
use contract::{
    mul_div_down, mul_div_up, sha256, table_key_of, tables, Account, Cursor, Decimal, Key, Output,
};

tables! {
    /// Rows of 1 to 27 bytes.
    ACCOUNTS: Table = acct;
    LOTS: Table = B;
    PAYMENTS: FullTable = pay;
}

const POT: Key = ACCOUNTS.constant_key(b"pot");

/// A key by hand: the name, the row, and the length in the last byte.
fn key(name: &[u8; 4], row: &[u8]) -> Key {
    let mut bytes = [0; 32];
    bytes[..4].copy_from_slice(name);
    bytes[4..4 + row.len()].copy_from_slice(row);
    if row.len() < 28 {
        bytes[31] = row.len() as u8;
    }
    Key(bytes)
}

#[test]
fn keys_of_parts() {
    let who = Account::named("alice");
    let mut row = b"alice".to_vec();
    row.resize(20, 0);
    assert_eq!(POT, key(b"acct", b"pot"));
    assert_eq!(ACCOUNTS.key(who), key(b"acct", &row));
    assert_eq!(ACCOUNTS.key(&who.bytes()), key(b"acct", &row));
    row.extend(7u64.to_le_bytes());
    assert_eq!(PAYMENTS.key((who, 7u64)), key(b"pay\0", &row));
    assert_eq!(
        LOTS.key((1u8, 0x0302u16, 0x0706_0504u32, [8u8, 9, 10])),
        key(b"B\0\0\0", &[1, 2, 3, 4, 5, 6, 7, 8, 9, 10])
    );
    assert_eq!(LOTS.key((-1i8, -2i64)), key(b"B\0\0\0", &[255, 254, 255, 255, 255, 255, 255, 255, 255]));
    assert_eq!(LOTS.key((1u8, who)), key(b"B\0\0\0", &[&[1][..], &row[..20]].concat()));
}

#[test]
fn no_two_rows_have_one_key() {
    let mut rows = BTreeMap::new();
    for length in 1..=27 {
        for filled in 0..=length {
            let mut row = vec![0; length];
            row[..filled].fill(27);
            assert_eq!(rows.insert(ACCOUNTS.constant_key(&row), row.clone()), None);
            assert_eq!(rows.insert(LOTS.constant_key(&row), row.clone()), None);
            assert_eq!(ACCOUNTS.constant_key(&row), key(b"acct", &row));
        }
    }
}

fn of_input(input: &'static [u8]) -> Result<[u8; 32], &'static str> {
    let mut cursor = Cursor::over(input);
    let shift = cursor.take_u8() as usize;
    cursor.take_bytes(shift);
    let who = cursor.take_account();
    Ok(if cursor.left().is_empty() { ACCOUNTS.key(who).0 } else { ACCOUNTS.key_of(cursor.left()).0 })
}

#[test]
fn keys_of_inputs() {
    let mut ledger = Ledger::new(1);
    for shift in 0..4 {
        let mut input = vec![shift; 1 + shift as usize];
        input.extend(Account::named("bob").bytes());
        let wanted = key(b"acct", &Account::named("bob").bytes()).0;
        assert!(ledger.call(of_input, &input).has_returned(wanted));
        input.extend([9; 28]);
        assert!(ledger.call(of_input, &input).has_reverted("a row has 1 to 27 bytes"));
    }
}

/// A random number, by Marsaglia's xorshift.
fn next(state: &mut u64) -> u64 {
    *state ^= *state << 13;
    *state ^= *state >> 7;
    *state ^= *state << 17;
    *state
}

#[test]
fn quotients() {
    let mut state = 0x9e37_79b9_7f4a_7c15;
    let edges = [0, 1, 2, 0xffff << 48, 1 << 48, u32::MAX as u64, 1 << 32, 1 << 63, u64::MAX - 1, u64::MAX];
    for _ in 0..10_000 {
        let mut number = || match next(&mut state) % 5 {
            0 => edges[next(&mut state) as usize % edges.len()],
            _ => next(&mut state) >> (next(&mut state) % 64),
        };
        let (one, other, divisor) = (number(), number(), number());
        let product = one as u128 * other as u128;
        let down = product.checked_div(divisor as u128);
        let up = down.map(|down| down + u128::from(product % divisor as u128 != 0));
        assert_eq!(mul_div_down(one, other, divisor), down.and_then(|down| u64::try_from(down).ok()));
        assert_eq!(mul_div_up(one, other, divisor), up.and_then(|up| u64::try_from(up).ok()));
    }
}

#[test]
fn keys_of_long_rows() {
    let message = b"\0vault.payment\0\x03\0\0\0abc\x00\0\0\0\x02\0\0\0de";
    assert_eq!(table_key_of("vault.payment", &[b"abc", b"", b"de"]).0, sha256(message));
}

#[test]
fn decimals_in_outputs() {
    let mut output = Output::new();
    output.append("balance ");
    output.append(Decimal::of(u64::MAX));
    assert_eq!(output.as_ref(), b"balance 18446744073709551615");
    assert_eq!(format!("{}", Decimal::of(70)), "70");
}
