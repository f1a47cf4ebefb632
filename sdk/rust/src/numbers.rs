//! The parts of an input, one after another, and numbers in decimal.

use core::fmt;

use crate::{revert, Account, Key, ACCOUNT_LENGTH};

/// A place in an input. Each call below takes what is there and moves past it; if too few bytes are left, the contract
/// reverts. The lowest byte of a number comes first.
#[derive(Clone, Debug)]
pub struct Cursor<'a> {
    left: &'a [u8],
}

impl<'a> Cursor<'a> {
    /// The beginning of an input.
    pub const fn over(input: &'a [u8]) -> Cursor<'a> {
        Cursor { left: input }
    }

    /// The bytes from the place on.
    pub const fn left(&self) -> &'a [u8] {
        self.left
    }

    pub fn take_bytes(&mut self, count: usize) -> &'a [u8] {
        if self.left.len() < count {
            revert(b"the input is too short");
        }
        let (taken, left) = self.left.split_at(count);
        self.left = left;
        taken
    }

    fn take_array<const N: usize>(&mut self) -> [u8; N] {
        let mut taken = [0; N];
        taken.copy_from_slice(self.take_bytes(N));
        taken
    }

    pub fn take_u8(&mut self) -> u8 {
        u8::from_le_bytes(self.take_array())
    }

    pub fn take_u32(&mut self) -> u32 {
        u32::from_le_bytes(self.take_array())
    }

    pub fn take_u64(&mut self) -> u64 {
        u64::from_le_bytes(self.take_array())
    }

    pub fn take_key(&mut self) -> Key {
        Key(self.take_array())
    }

    /// Costs least if all that is before it in the input has a multiple of 4 bytes.
    pub fn take_account(&mut self) -> Account {
        let bytes = self.take_bytes(ACCOUNT_LENGTH).as_ptr();
        if bytes as usize % 4 == 0 {
            // SAFETY: 20 bytes are lent there, which is a multiple of 4; any bytes are right for words.
            let words = unsafe { *bytes.cast::<[u32; ACCOUNT_LENGTH / 4]>() };
            return Account::of_words(words.map(u32::from_le));
        }
        // SAFETY: 20 bytes are lent there.
        Account::new(unsafe { *bytes.cast::<[u8; ACCOUNT_LENGTH]>() })
    }

    /// Reverts if bytes are left.
    pub fn take_end(&self) {
        if !self.left.is_empty() {
            revert(b"the input is too long");
        }
    }
}

/// The most digits of a number.
const DECIMAL_LIMIT: usize = 20;

/// A number in decimal, as an output or a text: it costs less than `write!`.
#[derive(Clone, Copy, Debug)]
pub struct Decimal {
    digits: [u8; DECIMAL_LIMIT],
    start: usize,
}

impl Decimal {
    pub const fn of(number: u64) -> Decimal {
        let mut decimal = Decimal {
            digits: [b'0'; DECIMAL_LIMIT],
            start: DECIMAL_LIMIT - 1,
        };
        let mut left = number / 10;
        decimal.digits[DECIMAL_LIMIT - 1] += (number % 10) as u8;
        while left > 0 {
            decimal.start -= 1;
            decimal.digits[decimal.start] += (left % 10) as u8;
            left /= 10;
        }
        decimal
    }
}

impl AsRef<[u8]> for Decimal {
    fn as_ref(&self) -> &[u8] {
        &self.digits[self.start..]
    }
}

impl fmt::Display for Decimal {
    fn fmt(&self, to: &mut fmt::Formatter<'_>) -> fmt::Result {
        self.digits[self.start..].iter().try_for_each(|digit| fmt::Write::write_char(to, char::from(*digit)))
    }
}
