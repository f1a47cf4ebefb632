//! Blocks: calls in order over the caller's state.

use std::error::Error;
use std::fmt;
use std::thread;
use std::time::Duration;

use rvstm_sys as sys;

use crate::handles::{unexpected, Calls, Step};
use crate::{Key, Outcome, Program};

/// The greatest length of a value, under any rules.
const LONGEST_VALUE: usize = 256;
/// So many times in a row a run may lack memory before it is given up.
const TRIES: u32 = 8;
/// So long a run waits for memory before it tries again.
const PAUSE: Duration = Duration::from_millis(1);

/// A map from keys to values of at most 256 bytes, as it was before the block. It is one state for the whole run: it must not
/// change before the run has ended.
pub trait State {
    /// The value at a key, or None if the key is absent. If your database fails, panic, or note it and throw the outcome away. A
    /// panic ends the run, which frees its memory, and is passed on.
    fn get(&self, key: &Key) -> Option<Vec<u8>>;
}

/// The rules of a block's calls: `docs/contracts.md` says what each allows.
#[derive(Clone, Copy, Debug, PartialEq, Eq, Hash)]
pub enum Rules {
    /// A call reads and writes values of at most 64 bytes.
    One = 1,
    /// A call reads and writes values of at most 256 bytes.
    Two = 2,
    /// As [`Rules::Two`], and a call may add to a key.
    Three = 3,
}

/// Calls that run in order. A block may move to another thread, but two threads can't share it:
///
/// ```compile_fail
/// fn shared<T: Sync>() {}
/// shared::<rvstm::Block>();
/// ```
pub struct Block {
    rules: Rules,
    /// None if the block has no calls.
    calls: Option<Calls>,
}

impl Block {
    /// A block without calls.
    pub const fn new(rules: Rules) -> Block {
        Block { rules, calls: None }
    }

    /// Adds a call after the others: of a program, with a gas limit of 1 to 10,000,000, and an input of at most 4,096 bytes. A
    /// block has at most 1,024 calls. If a call is refused, the block is as it was.
    ///
    /// ```
    /// use rvstm::{Block, CallError, Program, Rules};
    ///
    /// # fn main() -> Result<(), Box<dyn std::error::Error>> {
    /// # let file = "../../examples/counter/counter.elf";
    /// let counter = Program::load(&std::fs::read(file)?)?;
    /// let mut block = Block::new(Rules::Three);
    /// block.call(&counter, 1_000, &[7; 32])?;
    /// assert_eq!(block.call(&counter, 0, &[7; 32]).unwrap_err(), CallError::BadGas);
    /// # Ok(())
    /// # }
    /// ```
    pub fn call(&mut self, program: &Program, gas: u32, input: &[u8]) -> Result<&mut Block, CallError> {
        let calls = match &mut self.calls {
            Some(calls) => calls,
            none => none.insert(Calls::open(self.rules as u32).ok_or(CallError::NoMemory)?),
        };
        match calls.add(&program.0, gas, input) {
            sys::RVSTM_DONE => Ok(self),
            sys::RVSTM_TOO_MANY_CALLS => Err(CallError::TooManyCalls),
            sys::RVSTM_BAD_GAS => Err(CallError::BadGas),
            sys::RVSTM_LONG_INPUT => Err(CallError::LongInput),
            sys::RVSTM_FAILED => Err(CallError::NoMemory),
            status => unexpected("rvstm_calls_add", status),
        }
    }

    /// Runs the calls in order over a state, on this thread. Afterwards the block has no calls, in whatever way the run ended.
    pub fn run<S: State + ?Sized>(&mut self, state: &S) -> Result<Outcome, Fault> {
        let mut calls = match self.calls.take() {
            Some(calls) => calls,
            None => return Ok(Outcome { receipts: Vec::new(), changes: Vec::new() }),
        };
        let mut tries = 0..TRIES;
        loop {
            match calls.go() {
                Step::Ended => return Ok(calls.outcome()),
                Step::Paused => wait(&mut tries)?,
                Step::Key(key) => {
                    answer(&mut calls, &key, state.get(&key))?;
                    tries = 0..TRIES;
                }
            }
        }
    }
}

impl fmt::Debug for Block {
    fn fmt(&self, to: &mut fmt::Formatter<'_>) -> fmt::Result {
        to.debug_struct("Block").field("rules", &self.rules).finish_non_exhaustive()
    }
}

/// Gives a run the value of the key that it asks for.
fn answer(calls: &mut Calls, key: &Key, value: Option<Vec<u8>>) -> Result<(), Fault> {
    let length = value.as_ref().map_or(0, Vec::len);
    if length > LONGEST_VALUE {
        return Err(Fault::LongValue { key: *key, length });
    }
    let mut tries = 0..TRIES;
    loop {
        match calls.base(value.as_deref()) {
            sys::RVSTM_DONE => return Ok(()),
            sys::RVSTM_FAILED => wait(&mut tries)?,
            status => unexpected("rvstm_run_base", status),
        }
    }
}

/// Waits a moment for memory, if a try is left.
fn wait(tries: &mut std::ops::Range<u32>) -> Result<(), Fault> {
    tries.next().ok_or(Fault::Memory)?;
    thread::sleep(PAUSE);
    Ok(())
}

/// Why a block did not take a call.
#[derive(Clone, Copy, Debug, PartialEq, Eq)]
pub enum CallError {
    /// The block has 1,024 calls.
    TooManyCalls,
    /// The gas limit is not 1 to 10,000,000.
    BadGas,
    /// The input has more than 4,096 bytes.
    LongInput,
    /// Memory ran out.
    NoMemory,
}

impl fmt::Display for CallError {
    fn fmt(&self, to: &mut fmt::Formatter<'_>) -> fmt::Result {
        to.pad(match self {
            CallError::TooManyCalls => "the block has 1,024 calls",
            CallError::BadGas => "the gas limit is not 1 to 10,000,000",
            CallError::LongInput => "the input has more than 4,096 bytes",
            CallError::NoMemory => "memory ran out",
        })
    }
}

impl Error for CallError {}

/// Why a run has no outcome. The state was only read, so the block can be made again.
#[derive(Clone, Copy, Debug, PartialEq, Eq)]
#[non_exhaustive]
pub enum Fault {
    /// Memory ran out, also after a few tries.
    Memory,
    /// The state returned a value of more than 256 bytes.
    LongValue {
        /// The key at which it is.
        key: Key,
        /// The number of its bytes.
        length: usize,
    },
}

impl fmt::Display for Fault {
    fn fmt(&self, to: &mut fmt::Formatter<'_>) -> fmt::Result {
        match self {
            Fault::Memory => to.pad("memory ran out"),
            Fault::LongValue { key, length } => {
                write!(to, "the value at the key ")?;
                key.iter().try_for_each(|byte| write!(to, "{byte:02x}"))?;
                write!(to, " has {length} bytes; at most {LONGEST_VALUE} are allowed")
            }
        }
    }
}

impl Error for Fault {}
