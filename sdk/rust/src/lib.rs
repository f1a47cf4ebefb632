//! What a contract in Rust needs: the storage calls, the limits and the entry. `docs/contracts.md` has the rules.

//!
//! A contract is built for riscv32im-unknown-none-elf. Built for another machine, it is called in tests by `host`.

#![cfg_attr(target_arch = "riscv32", no_std)]

#[cfg(all(target_arch = "riscv32", feature = "alloc"))]
mod allocator;
mod calls;
mod entry;
#[cfg(not(target_arch = "riscv32"))]
pub mod host;
#[cfg(target_arch = "riscv32")]
mod machine;
mod numbers;
mod output;
mod products;
mod rows;
mod sha256;

pub use calls::{add, read, read_array, remove, return_output, revert, write, WrongLength};
pub use entry::run;
pub use numbers::{Cursor, Decimal};
pub use output::{Output, ToOutput};
pub use products::{mul_div_down, mul_div_up};
#[doc(hidden)]
pub use rows::Words;
pub use rows::{Account, FullTable, Row, Table, ACCOUNT_LENGTH, FULL_ROW_LENGTH, ROW_LIMIT};
pub use sha256::{sha256, table_key, table_key_of, DIGEST_LENGTH};

/// The bytes of every key.
pub const KEY_LENGTH: usize = 32;
/// The most bytes of a value under rules one.
pub const VALUE_LIMIT: usize = 64;
/// The most bytes of a value under rules two and three.
pub const LONG_VALUE_LIMIT: usize = 256;
/// The most bytes of an output.
pub const OUTPUT_LIMIT: usize = 256;
/// The most bytes of an input.
pub const INPUT_LIMIT: usize = 4096;
/// The most keys that one call writes, removes or adds to.
pub const KEYS_LIMIT: usize = 256;

/// A key of the storage.
#[derive(Clone, Copy, Debug, PartialEq, Eq, PartialOrd, Ord, Hash)]
#[repr(align(4))]
pub struct Key(pub [u8; KEY_LENGTH]);

impl Key {
    /// The bytes of a text, and zeros up to 32 bytes. Panics if the text is longer.
    pub const fn named(text: &str) -> Key {
        let text = text.as_bytes();
        let mut bytes = [0; KEY_LENGTH];
        let mut at = 0;
        while at < text.len() {
            bytes[at] = text[at];
            at += 1;
        }
        Key(bytes)
    }
}

impl TryFrom<&[u8]> for Key {
    type Error = core::array::TryFromSliceError;

    /// Refuses all but 32 bytes.
    fn try_from(bytes: &[u8]) -> Result<Key, Self::Error> {
        bytes.try_into().map(Key)
    }
}
