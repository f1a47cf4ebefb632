//! Tests on the machine that compiles them, as those of examples/tally.

use super::{count_vote, Key};
use contract::host::Ledger;

const CANDIDATE: Key = Key([0xaa; 32]);
const OTHER: Key = Key([0xbb; 32]);

#[test]
fn votes() {
    let mut ledger = Ledger::new(1);
    assert!(ledger
        .call(count_vote, &CANDIDATE.0)
        .has_returned(1u64.to_le_bytes()));
    assert!(ledger
        .call(count_vote, &CANDIDATE.0)
        .has_returned(2u64.to_le_bytes()));
    assert!(ledger
        .call(count_vote, &OTHER.0)
        .has_returned(1u64.to_le_bytes()));
    assert_eq!(ledger.get(&CANDIDATE), Some(&2u64.to_le_bytes()[..]));
}

#[test]
fn no_key() {
    let mut ledger = Ledger::new(1);
    assert!(ledger
        .call(count_vote, &CANDIDATE.0[..31])
        .has_reverted("the input is no key"));
    assert!(ledger
        .call(count_vote, &[0xaa; 33])
        .has_reverted("the input is no key"));
    assert!(ledger
        .call(count_vote, &[])
        .has_reverted("the input is no key"));
}

#[test]
fn no_count() {
    let mut ledger = Ledger::new(1);
    ledger.set(&CANDIDATE, b"seven");
    assert!(ledger
        .call(count_vote, &CANDIDATE.0)
        .has_reverted("the key has no count"));
    ledger.set(&CANDIDATE, &u64::MAX.to_le_bytes());
    assert!(ledger
        .call(count_vote, &CANDIDATE.0)
        .has_reverted("the count is too large"));
    assert_eq!(ledger.get(&CANDIDATE), Some(&u64::MAX.to_le_bytes()[..]));
}
