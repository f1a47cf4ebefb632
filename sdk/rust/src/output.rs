//! Texts without an allocator.

use core::fmt;

#[cfg(all(target_arch = "riscv32", feature = "alloc"))]
extern crate alloc;
#[cfg(all(target_arch = "riscv32", feature = "alloc"))]
use alloc::{string::String, vec::Vec};

use crate::{Decimal, OUTPUT_LIMIT};

/// An output that `write!` makes. What does not fit into [`OUTPUT_LIMIT`] bytes is cut off.
#[derive(Clone)]
pub struct Output {
    bytes: [u8; OUTPUT_LIMIT],
    length: usize,
}

impl Output {
    /// An empty output.
    pub const fn new() -> Output {
        Output {
            bytes: [0; OUTPUT_LIMIT],
            length: 0,
        }
    }

    /// Puts bytes after those that are there, such as a [`Decimal`](crate::Decimal). It costs less than `write!`.
    pub fn append(&mut self, bytes: impl AsRef<[u8]>) {
        for (place, byte) in self.bytes[self.length..].iter_mut().zip(bytes.as_ref()) {
            *place = *byte;
            self.length += 1;
        }
    }
}

impl Default for Output {
    fn default() -> Output {
        Output::new()
    }
}

impl AsRef<[u8]> for Output {
    fn as_ref(&self) -> &[u8] {
        &self.bytes[..self.length]
    }
}

impl fmt::Write for Output {
    fn write_str(&mut self, text: &str) -> fmt::Result {
        self.append(text);
        Ok(())
    }
}

/// What a call may return or revert with. An array of more than [`OUTPUT_LIMIT`] bytes does not compile.
pub trait ToOutput {
    /// Its bytes.
    fn to_output(&self) -> &[u8];
}

struct Length<const N: usize>;

impl<const N: usize> Length<N> {
    const FITS: () = assert!(N <= OUTPUT_LIMIT, "an output has at most 256 bytes");
}

impl<const N: usize> ToOutput for [u8; N] {
    fn to_output(&self) -> &[u8] {
        #[allow(clippy::let_unit_value)]
        let () = Length::<N>::FITS;
        self
    }
}

impl<T: ToOutput + ?Sized> ToOutput for &T {
    fn to_output(&self) -> &[u8] {
        (**self).to_output()
    }
}

macro_rules! bytes_as_outputs {
    ($($bytes:ty)*) => {$(
        impl ToOutput for $bytes {
            fn to_output(&self) -> &[u8] {
                self.as_ref()
            }
        }
    )*};
}

bytes_as_outputs!([u8] str Output Decimal);
#[cfg(any(not(target_arch = "riscv32"), feature = "alloc"))]
bytes_as_outputs!(Vec<u8> String);
