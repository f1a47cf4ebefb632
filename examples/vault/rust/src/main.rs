//! Payments in parts, in time, as examples/vault/vault.c has them in C.

#![no_std]
#![no_main]

use contract::{
    entry, mul_div_down, read, read_array, remove, return_output, tables, write, Account, Cursor, Key,
};

type Told<T> = Result<T, &'static str>;

const OPEN: u32 = 0;
const CLAIM: u32 = 1;
const CLOCK: Key = Key::named("node.clock");

tables! {
    ACCOUNTS: Table = acct;
    /// The payee and the number of the payment.
    PAYMENTS: FullTable = pay;
}

struct Payment {
    amount: u64,
    paid: u64,
    start: u64,
    end: u64,
}

impl Payment {
    fn at(key: &Key) -> Told<Payment> {
        let value: [u8; 32] = read_array(key).ok().flatten().ok_or("there is no such payment")?;
        let mut cursor = Cursor::over(&value);
        let [amount, paid, start, end] = [(); 4].map(|()| cursor.take_u64());
        Ok(Payment { amount, paid, start, end })
    }

    fn write(&self, key: &Key) {
        let mut value = [0; 32];
        for (place, number) in value.chunks_exact_mut(8).zip([self.amount, self.paid, self.start, self.end]) {
            place.copy_from_slice(&number.to_le_bytes());
        }
        write(key, &value);
    }

    /// What is due at a time, paid or not.
    fn due(&self, time: u64) -> u64 {
        if time <= self.start {
            0
        } else if time >= self.end {
            self.amount
        } else {
            mul_div_down(self.amount, time - self.start, self.end - self.start).unwrap_or(self.amount)
        }
    }
}

fn now() -> Told<u64> {
    read_array(&CLOCK).ok().flatten().map(u64::from_le_bytes).ok_or("the node wrote no time")
}

fn balance_at(key: &Key) -> Told<u64> {
    let found = read_array(key).map_err(|_| "the account has no amount")?;
    Ok(found.map_or(0, u64::from_le_bytes))
}

fn open(input: &mut Cursor) -> Told<()> {
    let (from, to): (Account, Account) = (input.take_account(), input.take_account());
    let number = input.take_u64();
    let (amount, start, end) = (input.take_u64(), input.take_u64(), input.take_u64());
    input.take_end();
    if start >= end || end <= now()? {
        return Err("the time is over");
    }
    let (payer, key) = (ACCOUNTS.key(from), PAYMENTS.key((to, number)));
    let balance = balance_at(&payer)?.checked_sub(amount).ok_or("the balance is too small")?;
    if read(&key, &mut []) != Ok(None) {
        return Err("there is such a payment");
    }
    write(&payer, &balance.to_le_bytes());
    Payment { amount, paid: 0, start, end }.write(&key);
    Ok(())
}

fn claim(input: &mut Cursor) -> Told<u64> {
    let to = input.take_account();
    let key = PAYMENTS.key((to, input.take_u64()));
    let payee = ACCOUNTS.key(to);
    input.take_end();
    let mut payment = Payment::at(&key)?;
    let paid = payment.due(now()?) - payment.paid;
    let balance = balance_at(&payee)?.checked_add(paid).ok_or("the balance is too large")?;
    payment.paid += paid;
    write(&payee, &balance.to_le_bytes());
    if payment.paid == payment.amount {
        remove(&key);
    } else {
        payment.write(&key);
    }
    Ok(paid)
}

entry!(run);

fn run(input: &[u8]) -> Told<[u8; 0]> {
    let mut cursor = Cursor::over(input);
    match cursor.take_u32() {
        OPEN => open(&mut cursor)?,
        CLAIM => return_output(&claim(&mut cursor)?.to_le_bytes()),
        _ => return Err("unknown request"),
    }
    Ok([])
}
