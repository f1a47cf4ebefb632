//! Counts votes, as examples/tally does in C. The input is a candidate's key of 32 bytes; its count, 8 bytes, the
//! lowest first, goes up by one and is returned. Another input reverts, and so does a key that holds no count.

#![cfg_attr(not(test), no_std)]
#![cfg_attr(not(test), no_main)]

use contract::{entry, read_array, write, Key};

entry!(count_vote);

fn count_vote(input: &[u8]) -> Result<[u8; 8], &'static str> {
    let candidate = Key::try_from(input).map_err(|_| "the input is no key")?;
    let found = read_array(&candidate).map_err(|_| "the key has no count")?;
    let votes = found
        .map_or(0, u64::from_le_bytes)
        .checked_add(1)
        .ok_or("the count is too large")?;
    write(&candidate, &votes.to_le_bytes());
    Ok(votes.to_le_bytes())
}

#[cfg(test)]
mod tests;
