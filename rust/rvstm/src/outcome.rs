//! What a block did: a receipt for each call, and the changes of the state.

use std::fmt;

/// A key of the state.
pub type Key = [u8; 32];

/// What a block did. For a [`State`](crate::State) that answers each key in one way, it is what running the calls one after
/// another over that state does.
#[derive(Clone, Debug, PartialEq, Eq)]
pub struct Outcome {
    /// What each call did, in block order.
    pub receipts: Vec<Receipt>,
    /// What the block leaves at each key that its calls wrote, by ascending key: a value, or None if the key is removed. Make
    /// exactly these changes.
    pub changes: Vec<(Key, Option<Vec<u8>>)>,
}

/// What one call did.
#[derive(Clone, Debug, PartialEq, Eq)]
pub struct Receipt {
    /// How it ended.
    pub end: End,
    /// The gas that it used, at most its limit.
    pub gas: u32,
    /// The address of the instruction that ended it.
    pub pc: u32,
    /// The registers at its end, x0 to x31.
    pub registers: [u32; 32],
    /// What it returned or reverted with; empty after any other end.
    pub output: Vec<u8>,
    /// The keys that it wrote, ascending; empty unless it returned.
    pub writes: Vec<(Key, Write)>,
}

/// What a call does to a key.
#[derive(Clone, Debug, PartialEq, Eq)]
pub enum Write {
    /// The key gets a value.
    Value(Vec<u8>),
    /// The key is removed.
    Gone,
    /// An amount is added to the key's number, modulo 2^64.
    Sum(u64),
}

macro_rules! ends {
    ($($(#[$about:meta])* $end:ident $number:ident $text:literal,)*) => {
        /// How a call ended. Only [`End::Returned`] keeps its writes. The text is that of a result, such as `out-of-gas`.
        #[derive(Clone, Copy, Debug, PartialEq, Eq, Hash)]
        pub enum End {
            $($(#[$about])* $end,)*
        }

        impl End {
            pub(crate) fn of_number(number: u32) -> Option<End> {
                match number {
                    $(rvstm_sys::$number => Some(End::$end),)*
                    _ => None,
                }
            }
        }

        impl fmt::Display for End {
            fn fmt(&self, to: &mut fmt::Formatter<'_>) -> fmt::Result {
                to.pad(match self {
                    $(End::$end => $text,)*
                })
            }
        }
    };
}

ends! {
    /// It returned.
    Returned RVSTM_END_RETURNED "returned",
    /// It reverted.
    Reverted RVSTM_END_REVERTED "reverted",
    /// Less gas was left than the next instruction, or the copy of a READ, costs.
    OutOfGas RVSTM_END_OUT_OF_GAS "out-of-gas",
    /// The word is no instruction.
    Illegal RVSTM_END_ILLEGAL "illegal",
    /// An address is not a multiple of the size.
    Misaligned RVSTM_END_MISALIGNED "misaligned",
    /// A right to read or to write is missing.
    MemoryFault RVSTM_END_MEMORY_FAULT "memory-fault",
    /// A right to execute is missing.
    FetchFault RVSTM_END_FETCH_FAULT "fetch-fault",
    /// The instruction is EBREAK.
    Breakpoint RVSTM_END_BREAKPOINT "breakpoint",
    /// There is no storage call of this number.
    UnknownCall RVSTM_END_UNKNOWN_CALL "unknown-call",
    /// A length is above its limit.
    BadLength RVSTM_END_BAD_LENGTH "bad-length",
    /// A 257th key was written.
    TooManyWrites RVSTM_END_TOO_MANY_WRITES "too-many-writes",
}
