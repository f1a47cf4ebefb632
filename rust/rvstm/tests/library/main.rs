//! Tests over the library: the results of blocks, and uses of the crate.

mod blocks;
mod common;
mod uses;
