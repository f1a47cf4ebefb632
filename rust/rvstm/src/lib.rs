//! Blocks of contract calls over your own storage, and sessions of the program `rvstm`.
//!
//! A [`Block`] has up to 1,024 calls of [`Program`]s. It runs them in order over a [`State`], which is your database. It asks the
//! state for each key at most once, and keeps nothing there: the [`Outcome`] has what each call did, and the changes to make.
//!
#![cfg_attr(feature = "library", doc = "```")]
#![cfg_attr(not(feature = "library"), doc = "```ignore")]
//! use rvstm::{Block, End, Key, Program, Rules, State};
//! use std::collections::HashMap;
//!
//! struct Map(HashMap<Key, Vec<u8>>);
//!
//! impl State for Map {
//!     fn get(&self, key: &Key) -> Option<Vec<u8>> {
//!         self.0.get(key).cloned()
//!     }
//! }
//!
//! # fn main() -> Result<(), Box<dyn std::error::Error>> {
//! # let file = "../../examples/counter/counter.elf";
//! let counter = Program::load(&std::fs::read(file)?)?;
//! let key = [7; 32]; // the counter counts up the key that is its input
//! let mut state = Map(HashMap::new());
//!
//! let outcome = Block::new(Rules::One).call(&counter, 1_000, &key)?.call(&counter, 1_000, &key)?.run(&state)?;
//!
//! assert_eq!(outcome.receipts[1].end, End::Returned);
//! assert_eq!(outcome.receipts[1].gas, 639);
//! assert_eq!(outcome.changes, [(key, Some(vec![2, 0, 0, 0]))]);
//! for (key, value) in outcome.changes {
//!     match value {
//!         Some(value) => state.0.insert(key, value),
//!         None => state.0.remove(&key),
//!     };
//! }
//! # Ok(())
//! # }
//! ```
//!
//! The build needs the folder of `librvstm.a` in the environment variable RVSTM_LIBRARY. Without the feature `library` the crate
//! has only [`Session`], and needs no library.

#![forbid(unsafe_op_in_unsafe_fn)]
#![deny(unsafe_code)] // only `handles` has some
#![warn(missing_docs)]
#![cfg_attr(not(feature = "library"), allow(rustdoc::broken_intra_doc_links))]

#[cfg(feature = "library")]
mod block;
#[cfg(feature = "library")]
#[allow(unsafe_code)]
mod handles;
#[cfg(feature = "library")]
mod outcome;
#[cfg(feature = "library")]
mod program;
mod session;

#[cfg(feature = "library")]
pub use block::{Block, CallError, Fault, Rules, State};
#[cfg(feature = "library")]
pub use outcome::{End, Key, Outcome, Receipt, Write};
#[cfg(feature = "library")]
pub use program::{LoadError, Program};
pub use session::{Answer, Session};
