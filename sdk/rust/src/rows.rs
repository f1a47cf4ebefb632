//! Keys of rows: the name of the table in bytes 0 to 3, filled up with zeros, and the row from byte 4 on. They need no hash, and
//! no two rows have one key: the rows of a table have 28 bytes each, or they have 1 to 27 bytes, with zeros after them and their
//! length in byte 31. `docs/contracts.md` says why, and why no row has a key of `table_key`.

use core::marker::PhantomData;

use crate::{revert, Key, KEY_LENGTH};

/// The bytes of an account.
pub const ACCOUNT_LENGTH: usize = 20;
/// The bytes of each row of a [`FullTable`].
pub const FULL_ROW_LENGTH: usize = 28;
/// The most bytes of a row of a [`Table`].
pub const ROW_LIMIT: usize = 27;

const ROW_WORDS: usize = FULL_ROW_LENGTH / 4;

/// Who somebody is: the first 20 bytes of the SHA-256 of a public key.
#[derive(Clone, Copy, Debug, PartialEq, Eq, PartialOrd, Ord, Hash)]
pub struct Account {
    words: [u32; ACCOUNT_LENGTH / 4],
}

impl Account {
    /// The account of these bytes.
    pub const fn new(bytes: [u8; ACCOUNT_LENGTH]) -> Account {
        let mut words = [0; ACCOUNT_LENGTH / 4];
        let mut at = 0;
        while at < words.len() {
            let place = 4 * at;
            words[at] = u32::from_le_bytes([bytes[place], bytes[place + 1], bytes[place + 2], bytes[place + 3]]);
            at += 1;
        }
        Account { words }
    }

    /// The bytes of a text, and zeros after them, as `account:TEXT` of a list. Panics if the text is longer.
    pub const fn named(text: &str) -> Account {
        let text = text.as_bytes();
        let mut bytes = [0; ACCOUNT_LENGTH];
        let mut at = 0;
        while at < text.len() {
            bytes[at] = text[at];
            at += 1;
        }
        Account::new(bytes)
    }

    /// Its bytes.
    pub fn bytes(&self) -> [u8; ACCOUNT_LENGTH] {
        let mut bytes = [0; ACCOUNT_LENGTH];
        for (four, word) in bytes.chunks_exact_mut(4).zip(self.words) {
            four.copy_from_slice(&word.to_le_bytes());
        }
        bytes
    }

    pub(crate) const fn of_words(words: [u32; ACCOUNT_LENGTH / 4]) -> Account {
        Account { words }
    }
}

/// A row in the making: its words, the lowest byte first.
#[doc(hidden)]
pub struct Words([u32; ROW_WORDS]);

impl Words {
    /// Puts as many low bytes of a word at a place, which has zeros.
    #[inline(always)]
    fn put(&mut self, place: usize, word: u32, count: usize) {
        let shift = 8 * (place % 4);
        self.0[place / 4] |= word << shift;
        if place % 4 + count > 4 {
            self.0[place / 4 + 1] |= word >> (32 - shift);
        }
    }
}

/// A row, or a part of one: a number, an [`Account`], an array of bytes, or a tuple of two to four of these, one after another.
pub trait Row {
    /// How many bytes it has.
    const LENGTH: usize;

    #[doc(hidden)]
    fn put(&self, words: &mut Words, place: usize);
}

macro_rules! numbers_as_rows {
    ($($number:ty)*) => {$(
        impl Row for $number {
            const LENGTH: usize = core::mem::size_of::<$number>();

            #[inline(always)]
            fn put(&self, words: &mut Words, place: usize) {
                let low = *self as u64 & u64::MAX >> (64 - 8 * Self::LENGTH);
                words.put(place, low as u32, if Self::LENGTH < 4 { Self::LENGTH } else { 4 });
                if Self::LENGTH > 4 {
                    words.put(place + 4, (low >> 32) as u32, 4);
                }
            }
        }
    )*};
}

numbers_as_rows!(u8 u16 u32 u64 i8 i16 i32 i64);

impl Row for Account {
    const LENGTH: usize = ACCOUNT_LENGTH;

    #[inline(always)]
    fn put(&self, words: &mut Words, place: usize) {
        let [a, b, c, d, e] = self.words;
        words.put(place, a, 4);
        words.put(place + 4, b, 4);
        words.put(place + 8, c, 4);
        words.put(place + 12, d, 4);
        words.put(place + 16, e, 4);
    }
}

impl<const N: usize> Row for [u8; N] {
    const LENGTH: usize = N;

    #[inline(always)]
    fn put(&self, words: &mut Words, place: usize) {
        put_four(self, 0, words, place);
        put_four(self, 4, words, place);
        put_four(self, 8, words, place);
        put_four(self, 12, words, place);
        put_four(self, 16, words, place);
        put_four(self, 20, words, place);
        put_four(self, 24, words, place);
    }
}

/// Puts up to four bytes of an array, without a loop: the compiler knows how many there are.
#[inline(always)]
fn put_four<const N: usize>(bytes: &[u8; N], at: usize, words: &mut Words, place: usize) {
    let byte = |place: usize| if at + place < N { u32::from(bytes[at + place]) } else { 0 };
    if at < N {
        let word = byte(0) | byte(1) << 8 | byte(2) << 16 | byte(3) << 24;
        words.put(place + at, word, if N - at < 4 { N - at } else { 4 });
    }
}

impl<R: Row> Row for &R {
    const LENGTH: usize = R::LENGTH;

    #[inline(always)]
    fn put(&self, words: &mut Words, place: usize) {
        (*self).put(words, place);
    }
}

macro_rules! tuples_as_rows {
    ($(($($part:ident $at:tt)*))*) => {$(
        impl<$($part: Row),*> Row for ($($part,)*) {
            const LENGTH: usize = 0 $(+ $part::LENGTH)*;

            #[inline(always)]
            fn put(&self, words: &mut Words, place: usize) {
                let mut place = place;
                $(
                    self.$at.put(words, place);
                    place += $part::LENGTH;
                )*
                let _ = place;
            }
        }
    )*};
}

tuples_as_rows!((A 0 B 1) (A 0 B 1 C 2) (A 0 B 1 C 2 D 3));

/// Declares the tables of a contract: `tables! { ACCOUNTS: Table = acct; PAYMENTS: FullTable = pay; }`. A name has 1 to 4 letters,
/// A to Z and a to z. One name twice does not compile, so a table is one or the other.
#[macro_export]
macro_rules! tables {
    ($($(#[$about:meta])* $table:ident: $kind:ident = $name:ident;)*) => {
        $($(#[$about])* const $table: $crate::$kind = $crate::$kind::named(stringify!($name));)*

        #[allow(dead_code, non_camel_case_types)]
        enum NamesOfTables {
            $($name,)*
        }
    };
}

/// A table whose rows have 1 to 27 bytes.
#[derive(Clone, Copy, Debug)]
pub struct Table {
    name: u32,
}

/// A table whose rows have 28 bytes.
#[derive(Clone, Copy, Debug)]
pub struct FullTable {
    name: u32,
}

/// What the compiler checks of a row's type.
struct Fits<R>(PhantomData<R>);

impl<R: Row> Fits<R> {
    const IN_TABLE: () = assert!(R::LENGTH >= 1 && R::LENGTH <= ROW_LIMIT, "a row has 1 to 27 bytes, or 28 in a FullTable");
    const IN_FULL_TABLE: () = assert!(R::LENGTH == FULL_ROW_LENGTH, "a row of a FullTable has 28 bytes");
}

impl Table {
    /// What [`tables!`](crate::tables) makes of a name. Panics if the name is wrong.
    pub const fn named(name: &str) -> Table {
        Table { name: word_of_name(name) }
    }

    /// The key of a row. A row of another length does not compile.
    #[inline(always)]
    pub fn key<R: Row>(&self, row: R) -> Key {
        #[allow(clippy::let_unit_value)]
        let () = Fits::<R>::IN_TABLE;
        let mut words = Words([0; ROW_WORDS]);
        row.put(&mut words, 0);
        words.put(ROW_LIMIT, R::LENGTH as u32, 1);
        key_of_words(self.name, words.0)
    }

    /// The key of a row whose length is known only when the call runs. If it is not 1 to 27, the call reverts.
    pub fn key_of(&self, row: &[u8]) -> Key {
        if row.is_empty() || row.len() > ROW_LIMIT {
            revert(b"a row has 1 to 27 bytes");
        }
        self.constant_key(row)
    }

    /// The key of a constant row, which costs nothing when the call runs: `const POT: Key = FEES.constant_key(b"pot")`. A row that has
    /// not 1 to 27 bytes does not compile there.
    #[inline(always)]
    pub const fn constant_key(&self, row: &[u8]) -> Key {
        assert!(!row.is_empty() && row.len() <= ROW_LIMIT, "a row has 1 to 27 bytes");
        let mut key = key_of_words(self.name, [0; ROW_WORDS]);
        let mut at = 0;
        while at < row.len() {
            key.0[4 + at] = row[at];
            at += 1;
        }
        key.0[KEY_LENGTH - 1] = row.len() as u8;
        key
    }
}

impl FullTable {
    /// What [`tables!`](crate::tables) makes of a name. Panics if the name is wrong.
    pub const fn named(name: &str) -> FullTable {
        FullTable { name: word_of_name(name) }
    }

    /// The key of a row. A row of another length does not compile.
    #[inline(always)]
    pub fn key<R: Row>(&self, row: R) -> Key {
        #[allow(clippy::let_unit_value)]
        let () = Fits::<R>::IN_FULL_TABLE;
        let mut words = Words([0; ROW_WORDS]);
        row.put(&mut words, 0);
        key_of_words(self.name, words.0)
    }
}

const fn word_of_name(name: &str) -> u32 {
    let name = name.as_bytes();
    assert!(!name.is_empty() && name.len() <= 4, "the name of a table has 1 to 4 letters, A to Z and a to z");
    let mut word = 0;
    let mut at = 0;
    while at < name.len() {
        assert!(name[at].is_ascii_alphabetic(), "the name of a table has 1 to 4 letters, A to Z and a to z");
        word |= (name[at] as u32) << (8 * at);
        at += 1;
    }
    word
}

#[inline(always)]
const fn key_of_words(name: u32, row: [u32; ROW_WORDS]) -> Key {
    let [a, b, c, d, e, f, g] = row;
    let words = [name.to_le(), a.to_le(), b.to_le(), c.to_le(), d.to_le(), e.to_le(), f.to_le(), g.to_le()];
    // SAFETY: both have 32 bytes, and any bytes are right for either.
    Key(unsafe { core::mem::transmute::<[u32; 8], [u8; KEY_LENGTH]>(words) })
}
