//! Runs a contract on the machine that compiles it: in tests by `cargo test`, under a debugger too.
//!
//! Gas is not counted, memory has no rights, and a static variable keeps its value between calls. On the ledger's machine
//! each call starts from the program's file.

use std::{
    any::Any,
    cell::RefCell,
    collections::{BTreeMap, BTreeSet},
    panic::{catch_unwind, resume_unwind, AssertUnwindSafe},
};

use crate::{
    calls::{ABSENT, LONGER},
    run, Key, ToOutput, KEYS_LIMIT, LONG_VALUE_LIMIT, OUTPUT_LIMIT, VALUE_LIMIT,
};

/// How a call ends; `docs/contracts.md` says when.
#[derive(Clone, Debug, PartialEq, Eq)]
pub enum Ending {
    /// With its output.
    Returned(Vec<u8>),
    /// With its output.
    Reverted(Vec<u8>),
    /// With its message. On the ledger's machine such a call reverts, with the place and the message.
    Panicked(String),
    /// It adds under rules one or two.
    UnknownCall,
    /// A buffer, a value or an output is too long.
    BadLength,
    /// It writes, removes or adds to a key too many.
    TooManyWrites,
}

impl Ending {
    /// Whether the call returned with this output.
    pub fn has_returned(&self, output: impl AsRef<[u8]>) -> bool {
        matches!(self, Ending::Returned(found) if found == output.as_ref())
    }

    /// Whether the call reverted with this text.
    pub fn has_reverted(&self, text: impl AsRef<[u8]>) -> bool {
        matches!(self, Ending::Reverted(found) if found == text.as_ref())
    }
}

type Storage = BTreeMap<Key, Vec<u8>>;

/// A storage, and the calls of contracts over it.
#[derive(Clone, Debug)]
pub struct Ledger {
    rules: u32,
    storage: Storage,
}

impl Ledger {
    /// An empty storage, and calls under rules 1, 2 or 3.
    pub fn new(rules: u32) -> Ledger {
        assert!((1..=3).contains(&rules), "rules are 1, 2 or 3");
        let storage = Storage::new();
        Ledger { rules, storage }
    }

    /// The key's value.
    pub fn get(&self, key: &Key) -> Option<&[u8]> {
        self.storage.get(key).map(Vec::as_slice)
    }

    /// Gives the key a value.
    pub fn set(&mut self, key: &Key, value: &[u8]) {
        self.storage.insert(*key, value.to_vec());
    }

    /// Removes the key, which may be absent.
    pub fn remove(&mut self, key: &Key) {
        self.storage.remove(key);
    }

    /// Calls the function that [`entry!`](crate::entry) names with a copy of the input. What it writes is kept if it returned.
    pub fn call<O, E>(&mut self, body: fn(&'static [u8]) -> Result<O, E>, input: &[u8]) -> Ending
    where
        O: ToOutput,
        E: ToOutput,
    {
        let input: &'static [u8] = Box::leak(input.into());
        let (rules, storage) = (self.rules, self.storage.clone());
        let written = BTreeSet::new();
        CALL.with(|call| {
            *call.borrow_mut() = Some(Call {
                rules,
                storage,
                written,
            })
        });
        let end = catch_unwind(AssertUnwindSafe(|| -> () { run(body, input) }));
        let call = CALL
            .with(|call| call.borrow_mut().take())
            .expect("the call that began");
        let ending = ending_of(end.expect_err("a call ends by unwinding"));
        if let Ending::Returned(_) = ending {
            self.storage = call.storage;
        }
        ending
    }
}

/// The call that runs.
struct Call {
    rules: u32,
    storage: Storage,
    written: BTreeSet<Key>,
}

thread_local! {
    static CALL: RefCell<Option<Call>> = RefCell::new(None);
}

fn with_call<T>(act: impl FnOnce(&mut Call) -> T) -> T {
    CALL.with(|call| {
        act(call
            .borrow_mut()
            .as_mut()
            .expect("a storage call outside of Ledger::call"))
    })
}

/// How a call ended, by what it unwound with.
fn ending_of(payload: Box<dyn Any + Send>) -> Ending {
    let payload = match payload.downcast::<Ending>() {
        Ok(ending) => return *ending,
        Err(payload) => payload,
    };
    let text = payload.downcast_ref::<&str>().map(|text| text.to_string());
    Ending::Panicked(
        text.or_else(|| payload.downcast_ref::<String>().cloned())
            .unwrap_or_default(),
    )
}

fn end(ending: Ending) -> ! {
    resume_unwind(Box::new(ending))
}

fn refuse_above(limit: usize, length: usize) {
    if length > limit {
        end(Ending::BadLength)
    }
}

fn value_limit() -> usize {
    with_call(|call| {
        if call.rules == 1 {
            VALUE_LIMIT
        } else {
            LONG_VALUE_LIMIT
        }
    })
}

/// Counts a key as written.
fn note_written(key: &Key) {
    let count = with_call(|call| {
        call.written.insert(*key);
        call.written.len()
    });
    if count > KEYS_LIMIT {
        end(Ending::TooManyWrites)
    }
}

pub(crate) fn read(key: &Key, buffer: &mut [u8]) -> u32 {
    refuse_above(value_limit(), buffer.len());
    with_call(|call| match call.storage.get(key) {
        None => ABSENT,
        Some(value) if value.len() > buffer.len() => LONGER,
        Some(value) => {
            buffer[..value.len()].copy_from_slice(value);
            value.len() as u32
        }
    })
}

pub(crate) fn write(key: &Key, value: &[u8]) {
    refuse_above(value_limit(), value.len());
    note_written(key);
    with_call(|call| call.storage.insert(*key, value.to_vec()));
}

pub(crate) fn remove(key: &Key) {
    note_written(key);
    with_call(|call| call.storage.remove(key));
}

pub(crate) fn add(key: &Key, amount: u64) {
    if with_call(|call| call.rules) < 3 {
        end(Ending::UnknownCall)
    }
    note_written(key);
    with_call(|call| {
        let found = call
            .storage
            .get(key)
            .and_then(|value| value.as_slice().try_into().ok());
        let sum = found.map_or(0, u64::from_le_bytes).wrapping_add(amount);
        call.storage.insert(*key, sum.to_le_bytes().to_vec());
    });
}

pub(crate) fn return_output(output: &[u8]) -> ! {
    refuse_above(OUTPUT_LIMIT, output.len());
    end(Ending::Returned(output.to_vec()))
}

pub(crate) fn revert(output: &[u8]) -> ! {
    refuse_above(OUTPUT_LIMIT, output.len());
    end(Ending::Reverted(output.to_vec()))
}
