//! The storage calls, the cursor and the decimals on the machine that compiles them; docs/contracts.md has the rules.

use contract::host::{Ending, Ledger};
use contract::{
    add, read, read_array, remove, return_output, revert, write, Cursor, Decimal, Key, WrongLength,
};

const FIRST: Key = Key::named("first");
const SECOND: Key = Key::named("second");

type Told = Result<Vec<u8>, &'static str>;

/// A byte, a word, a number and a key, and nothing after them.
fn take_all(input: &[u8]) -> Told {
    let mut cursor = Cursor::over(input);
    let answer = (
        cursor.take_u8(),
        cursor.take_u32(),
        cursor.take_u64(),
        cursor.take_key(),
    );
    cursor.take_end();
    let wanted = (1, 0x0504_0302, 0x0d0c_0b0a_0908_0706, FIRST);
    if answer == wanted {
        Ok(vec![])
    } else {
        Err("other numbers")
    }
}

#[test]
fn cursor() {
    let mut input: Vec<u8> = (1..=13).collect();
    input.extend(FIRST.0);
    let mut ledger = Ledger::new(1);
    assert!(ledger.call(take_all, &input).has_returned(""));
    assert!(ledger
        .call(take_all, &input[..44])
        .has_reverted("the input is too short"));
    input.push(0);
    assert!(ledger
        .call(take_all, &input)
        .has_reverted("the input is too long"));
}

#[test]
fn decimals() {
    for (number, text) in [
        (0, "0"),
        (9, "9"),
        (10, "10"),
        (u64::MAX, "18446744073709551615"),
    ] {
        assert_eq!(Decimal::of(number).as_ref(), text.as_bytes());
    }
}

fn put_long(input: &[u8]) -> Told {
    write(&FIRST, input);
    Ok(vec![])
}

#[test]
fn values() {
    for (rules, limit) in [(1, 64), (2, 256), (3, 256)] {
        let mut ledger = Ledger::new(rules);
        assert!(ledger.call(put_long, &vec![7; limit]).has_returned(""));
        assert_eq!(ledger.get(&FIRST), Some(&vec![7; limit][..]));
        assert_eq!(
            ledger.call(put_long, &vec![7; limit + 1]),
            Ending::BadLength
        );
    }
}

fn look(_: &[u8]) -> Told {
    let mut buffer = [0; 4];
    let all = [
        read(&FIRST, &mut buffer) == Ok(Some(&[1, 2, 3])),
        read(&FIRST, &mut [0; 2]) == Err(WrongLength),
        read(&SECOND, &mut []) == Ok(None),
        read_array::<4>(&FIRST) == Err(WrongLength),
        read_array(&FIRST) == Ok(Some([1, 2, 3])),
    ];
    remove(&FIRST);
    let is_gone = read_array::<3>(&FIRST) == Ok(None);
    if all == [true; 5] && is_gone {
        revert(b"as wanted")
    } else {
        Ok(vec![])
    }
}

#[test]
fn reads_and_revert() {
    let mut ledger = Ledger::new(1);
    ledger.set(&FIRST, &[1, 2, 3]);
    assert!(ledger.call(look, &[]).has_reverted("as wanted"));
    assert_eq!(ledger.get(&FIRST), Some(&[1, 2, 3][..]));
}

fn add_twice(_: &[u8]) -> Told {
    add(&FIRST, u64::MAX);
    add(&FIRST, 3);
    add(&SECOND, 5);
    return_output(b"added")
}

#[test]
fn sums() {
    let mut ledger = Ledger::new(3);
    ledger.set(&SECOND, b"seven");
    assert!(ledger.call(add_twice, &[]).has_returned("added"));
    assert_eq!(ledger.get(&FIRST), Some(&[2, 0, 0, 0, 0, 0, 0, 0][..]));
    assert_eq!(ledger.get(&SECOND), Some(&[5, 0, 0, 0, 0, 0, 0, 0][..]));
    assert_eq!(Ledger::new(2).call(add_twice, &[]), Ending::UnknownCall);
}

/// Writes so many keys, each twice.
fn write_many(input: &[u8]) -> Told {
    let count = Cursor::over(input).take_u32();
    for number in (0..count).chain(0..count) {
        let mut key = FIRST;
        key.0[28..].copy_from_slice(&number.to_le_bytes());
        write(&key, b"");
    }
    Ok(vec![])
}

#[test]
fn many_writes() {
    let mut ledger = Ledger::new(1);
    assert!(ledger
        .call(write_many, &256u32.to_le_bytes())
        .has_returned(""));
    assert_eq!(
        ledger.call(write_many, &257u32.to_le_bytes()),
        Ending::TooManyWrites
    );
}

fn long_output(input: &[u8]) -> Told {
    if input[0] == 0 {
        Ok(vec![0; 257])
    } else {
        panic!("input {}", input[0])
    }
}

#[test]
fn outputs_and_panics() {
    let mut ledger = Ledger::new(1);
    assert_eq!(ledger.call(long_output, &[0]), Ending::BadLength);
    assert_eq!(
        ledger.call(long_output, &[7]),
        Ending::Panicked("input 7".into())
    );
}
