//! The storage calls.

#[cfg(not(target_arch = "riscv32"))]
use crate::host as machine;
#[cfg(target_arch = "riscv32")]
use crate::machine;
use crate::Key;

/// What READ answers in place of a length: the key has no value.
pub(crate) const ABSENT: u32 = 0xffff_ffff;
/// What READ answers in place of a length: the value is longer than the capacity.
pub(crate) const LONGER: u32 = 0xffff_fffe;

/// The value at a key has not the length that was asked for.
#[derive(Clone, Copy, Debug, PartialEq, Eq)]
pub struct WrongLength;

/// Copies the key's value into the buffer and lends these bytes; `None` if the key has no value. Refuses a
/// value that is longer than the buffer, and then nothing is copied.
///
/// The buffer has at most [`VALUE_LIMIT`](crate::VALUE_LIMIT) bytes under rules one, where a read costs 200.
/// Under rules two and three it has at most [`LONG_VALUE_LIMIT`](crate::LONG_VALUE_LIMIT), and a read costs one
/// more for each byte that it copies.
pub fn read<'a>(key: &Key, buffer: &'a mut [u8]) -> Result<Option<&'a [u8]>, WrongLength> {
    match machine::read(key, buffer) {
        ABSENT => Ok(None),
        LONGER => Err(WrongLength),
        length => Ok(buffer.get(..length as usize)),
    }
}

/// The key's value of `N` bytes; `None` if the key has no value. Refuses a value of another length.
pub fn read_array<const N: usize>(key: &Key) -> Result<Option<[u8; N]>, WrongLength> {
    let mut value = [0; N];
    match read(key, &mut value)?.map(<[u8]>::len) {
        None => Ok(None),
        Some(length) if length == N => Ok(Some(value)),
        Some(_) => Err(WrongLength),
    }
}

/// Gives the key a value of at most [`VALUE_LIMIT`](crate::VALUE_LIMIT) bytes under rules one, and of at most
/// [`LONG_VALUE_LIMIT`](crate::LONG_VALUE_LIMIT) under rules two and three. An empty value is not absence.
pub fn write(key: &Key, value: &[u8]) {
    machine::write(key, value);
}

/// Removes the key, which may be absent.
pub fn remove(key: &Key) {
    machine::remove(key);
}

/// Adds an amount to the number at the key, without reading it: calls that only add to a key do not conflict.
///
/// The number is a value of 8 bytes, the lowest first; an absent key, and a value of another length, count as 0.
/// The sum wraps at 2^64. Under rules three alone; otherwise the call ends as `unknown-call`.
pub fn add(key: &Key, amount: u64) {
    machine::add(key, amount);
}

/// Ends the call: its writes are kept, its output is these bytes, at most [`OUTPUT_LIMIT`](crate::OUTPUT_LIMIT).
pub fn return_output(output: &[u8]) -> ! {
    machine::return_output(output)
}

/// Ends the call: its writes are dropped, its output is these bytes, at most
/// [`OUTPUT_LIMIT`](crate::OUTPUT_LIMIT).
pub fn revert(output: &[u8]) -> ! {
    machine::revert(output)
}
