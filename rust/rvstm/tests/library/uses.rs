//! Uses of the crate: what it refuses, what a state may do to it, and which threads may have its types.

use std::collections::HashMap;
use std::error::Error;
use std::fs;
use std::panic::{catch_unwind, AssertUnwindSafe};
use std::thread;

use rvstm::{Block, CallError, End, Fault, Key, LoadError, Outcome, Program, Rules, State};

use crate::common::{counter, top, Map, Once};

const KEY: Key = [7; 32];
const GAS: u32 = 1_000;

/// A state that gives each key to a function.
struct By<F>(F);

impl<F: Fn(&Key) -> Option<Vec<u8>>> State for By<F> {
    fn get(&self, key: &Key) -> Option<Vec<u8>> {
        (self.0)(key)
    }
}

/// A block that counts KEY up so many times.
fn counts(program: &Program, times: usize) -> Block {
    let mut block = Block::new(Rules::One);
    for _ in 0..times {
        block.call(program, GAS, &KEY).unwrap();
    }
    block
}

fn left(outcome: &Outcome) -> &[(Key, Option<Vec<u8>>)] {
    assert!(outcome.receipts.iter().all(|one| (one.end, one.gas) == (End::Returned, 639)));
    &outcome.changes
}

#[test]
fn files_that_are_no_program_are_refused_by_name() {
    let mut shared = fs::read(top().join("examples/counter/counter.elf")).unwrap();
    shared[16] = 3; // e_type
    let files = [
        (vec![], "elf Truncated 1"),
        (vec![0; 52], "elf BadMagic 2"),
        (shared, "elf NotExec 5"),
        (vec![0; 131_072], "elf BadMagic 2"),
        (vec![0; 131_073], "file TooLong 3"),
    ];
    for (file, text) in files {
        let error: Box<dyn Error> = Program::load(&file).unwrap_err().into();
        assert_eq!(error.to_string(), text);
    }
    let refused = LoadError::Refused { area: "elf".into(), name: "Truncated".into(), number: 1 };
    assert_eq!(Program::load(&[]).unwrap_err(), refused);
    assert_eq!(format!("{:?}", counter()), "Program { .. }");
}

#[test]
fn calls_past_a_limit_are_refused_and_change_nothing() {
    let program = counter();
    let mut block = counts(&program, 1_022);
    let refused = |came: Result<&mut Block, CallError>, wanted: CallError, text: &str| {
        let error = came.unwrap_err();
        assert_eq!((error, error.to_string().as_str()), (wanted, text));
    };
    refused(block.call(&program, 0, &KEY), CallError::BadGas, "the gas limit is not 1 to 10,000,000");
    refused(block.call(&program, 10_000_001, &KEY), CallError::BadGas, "the gas limit is not 1 to 10,000,000");
    refused(block.call(&program, GAS, &[7; 4_097]), CallError::LongInput, "the input has more than 4,096 bytes");
    block.call(&program, 10_000_000, &KEY).unwrap().call(&program, GAS, &[7; 4_096]).unwrap();
    refused(block.call(&program, GAS, &KEY), CallError::TooManyCalls, "the block has 1,024 calls");
    assert_eq!(format!("{block:?}"), "Block { rules: One, .. }");

    let outcome = block.run(&Once::new(&Map::new())).unwrap();
    assert_eq!(outcome.receipts.len(), 1_024);
    // The counter reads the first 32 bytes of its input.
    assert_eq!(left(&outcome), [(KEY, Some(vec![0, 4, 0, 0]))]);
}

#[test]
fn a_block_without_calls_asks_for_nothing() {
    let outcome = Block::new(Rules::Two).run(&By(|_: &Key| panic!("asked"))).unwrap();
    assert_eq!(outcome, Outcome { receipts: vec![], changes: vec![] });
}

#[test]
fn a_value_above_256_bytes_is_a_fault() {
    let tally = Program::load(&fs::read(top().join("examples/tally/tally.elf")).unwrap()).unwrap();
    for rules in [Rules::One, Rules::Two, Rules::Three] {
        let mut block = Block::new(rules);
        let long = block.call(&tally, GAS, &KEY).unwrap().run(&By(|_: &Key| Some(vec![1; 257]))).unwrap_err();
        assert_eq!(long, Fault::LongValue { key: KEY, length: 257 });
        assert_eq!(
            long.to_string(),
            format!("the value at the key {} has 257 bytes; at most 256 are allowed", "07".repeat(32))
        );
        // The block is empty, and takes calls again. One of 256 bytes is legal, also if a call can't read it.
        let outcome = block.call(&tally, GAS, &KEY).unwrap().run(&By(|_: &Key| Some(vec![1; 256]))).unwrap();
        assert_eq!(outcome.receipts[0].output, b"the key has no count");
        assert_eq!((outcome.receipts.len(), outcome.receipts[0].end), (1, End::Reverted));
        assert!(outcome.changes.is_empty());
    }
}

#[test]
fn a_panic_of_the_state_is_passed_on() {
    let program = counter();
    let mut block = counts(&program, 3);
    let asked = catch_unwind(AssertUnwindSafe(|| block.run(&By(|_: &Key| panic!("the disk is gone")))));
    assert_eq!(asked.unwrap_err().downcast_ref(), Some(&"the disk is gone"));
    assert!(block.run(&Once::new(&Map::new())).unwrap().receipts.is_empty());
    let map = Map::from([(KEY, vec![9, 0, 0, 0])]);
    let outcome = block.call(&program, GAS, &KEY).unwrap().run(&Once::new(&map)).unwrap();
    assert_eq!(left(&outcome), [(KEY, Some(vec![10, 0, 0, 0]))]);
}

/// A program that is dropped, a block that is dropped before its run, and one that runs while another does.
#[test]
fn each_value_may_be_dropped_at_any_time() {
    let program = counter();
    drop(Block::new(Rules::One));
    drop(counts(&program, 2));
    let mut inner = counts(&program, 1);
    let mut outer = counts(&program, 2);
    drop(program);
    let inner = std::cell::RefCell::new(&mut inner);
    let nested = By(|_: &Key| {
        let outcome = inner.borrow_mut().run(&Once::new(&Map::new())).unwrap();
        left(&outcome)[0].1.clone()
    });
    assert_eq!(left(&outer.run(&nested).unwrap()), [(KEY, Some(vec![3, 0, 0, 0]))]);
}

#[test]
fn a_program_and_its_blocks_move_between_threads() {
    let program = thread::spawn(counter).join().unwrap();
    let mut block = counts(&program, 2);
    let state = HashMap::from([(KEY, vec![1, 0, 0, 0])]);
    let running = thread::spawn(move || block.run(&By(|key: &Key| state.get(key).cloned())));
    let here = counts(&program, 5).run(&Once::new(&Map::new())).unwrap();
    thread::spawn(move || drop(program)).join().unwrap();
    assert_eq!(left(&running.join().unwrap().unwrap()), [(KEY, Some(vec![3, 0, 0, 0]))]);
    assert_eq!(left(&here), [(KEY, Some(vec![5, 0, 0, 0]))]);
}
