//! What the tests share: block files, a state over a map that is asked for a key at most once, and the text of a result.

use std::cell::RefCell;
use std::collections::{BTreeMap, BTreeSet};
use std::fmt::Write as _;
use std::fs;
use std::path::{Path, PathBuf};

use rvstm::{Block, Key, Outcome, Program, Rules, State, Write};

pub type Map = BTreeMap<Key, Vec<u8>>;

/// The top of the repository.
pub fn top() -> PathBuf {
    Path::new(env!("CARGO_MANIFEST_DIR")).join("../..")
}

/// The counter of the examples, which counts up the key that is its input.
pub fn counter() -> Program {
    Program::load(&fs::read(top().join("examples/counter/counter.elf")).unwrap()).unwrap()
}

/// A state that allows each key once, and ends the test otherwise.
pub struct Once<'a> {
    map: &'a Map,
    asked: RefCell<BTreeSet<Key>>,
}

impl<'a> Once<'a> {
    pub fn new(map: &'a Map) -> Once<'a> {
        Once { map, asked: RefCell::default() }
    }
}

impl State for Once<'_> {
    fn get(&self, key: &Key) -> Option<Vec<u8>> {
        assert!(self.asked.borrow_mut().insert(*key), "a key is asked for twice: {}", hex(key));
        self.map.get(key).cloned()
    }
}

/// A block file without a fault, by `docs/formats.md`. Its paths begin at a folder.
pub fn read_block(path: &Path, folder: &Path) -> (Block, Map) {
    let (mut rules, mut programs, mut map) = (Rules::One, Vec::new(), Map::new());
    let text = fs::read_to_string(path).unwrap();
    let calls = text.lines().map(|line| line.split(' ').collect::<Vec<_>>()).filter_map(|words| {
        match words[..] {
            ["rvblock", _] | ["gas", "1"] => {}
            ["gas", "2"] => rules = Rules::Two,
            ["gas", "3"] => rules = Rules::Three,
            ["program", _, name] => programs.push(Program::load(&fs::read(folder.join(name)).unwrap()).unwrap()),
            ["store", key, value] => drop(map.insert(bytes(key).try_into().unwrap(), bytes(value))),
            ["call", program, gas, input] => return Some((number(program) as usize, number(gas), bytes(input))),
            _ => panic!("{words:?}"),
        }
        None
    });
    let calls: Vec<_> = calls.collect();
    let mut block = Block::new(rules);
    for (program, gas, input) in calls {
        block.call(&programs[program], gas, &input).unwrap();
    }
    (block, map)
}

/// The result of a block as `seq` prints it: the receipts, and the map with the changes made.
pub fn result(outcome: Outcome, mut map: Map) -> String {
    let mut text = String::new();
    for (call, receipt) in outcome.receipts.iter().enumerate() {
        let (end, gas, pc, output) = (receipt.end, receipt.gas, receipt.pc, hex(&receipt.output));
        writeln!(text, "call {call} {end} gas {gas} pc {pc:08x} out {output}").unwrap();
        let registers: Vec<String> = receipt.registers.iter().map(|word| format!("{word:08x}")).collect();
        writeln!(text, "regs {}", registers.join(" ")).unwrap();
        for (key, write) in &receipt.writes {
            let what = match write {
                Write::Value(value) => hex(value),
                Write::Gone => "gone".into(),
                Write::Sum(amount) => format!("add {amount}"),
            };
            writeln!(text, "write {call} {} {what}", hex(key)).unwrap();
        }
    }
    assert!(outcome.changes.windows(2).all(|two| two[0].0 < two[1].0), "the changes are not in order");
    for (key, value) in outcome.changes {
        match value {
            Some(value) => map.insert(key, value),
            None => map.remove(&key),
        };
    }
    for (key, value) in map {
        writeln!(text, "store {} {}", hex(&key), hex(&value)).unwrap();
    }
    text + "end\n"
}

fn number(text: &str) -> u32 {
    text.parse().unwrap()
}

/// The bytes of hex digits; `-` for none.
fn bytes(text: &str) -> Vec<u8> {
    let digits = text.trim_start_matches('-').as_bytes().chunks(2);
    digits.map(|two| u8::from_str_radix(std::str::from_utf8(two).unwrap(), 16).unwrap()).collect()
}

fn hex(bytes: &[u8]) -> String {
    if bytes.is_empty() {
        return "-".into();
    }
    bytes.iter().map(|byte| format!("{byte:02x}")).collect()
}
