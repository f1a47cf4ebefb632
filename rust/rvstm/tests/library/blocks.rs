//! Blocks over a map give the text that a model in Python worked out, and that `rvstm seq` prints.

use std::fs;
use std::path::{Path, PathBuf};
use std::process::Command;

use crate::common::{read_block, result, top, Once};

/// The text of a block's result. Paths in it begin at a folder.
fn text_of(path: &Path, folder: &Path) -> String {
    let (mut block, map) = read_block(path, folder);
    let outcome = block.run(&Once::new(&map)).unwrap();
    result(outcome, map)
}

fn same(came: &str, wanted: &str, path: &Path) {
    for (number, (line, other)) in came.lines().zip(wanted.lines()).enumerate() {
        assert_eq!(line, other, "line {} of {}", number + 1, path.display());
    }
    assert_eq!(came, wanted, "{}", path.display());
}

/// Cases of `tests/cases`, 40 in a folder, whose results a model worked out from the specification alone.
fn results_are_those_of_the_model(folder: &str) {
    let cases = fs::read_dir(top().join("tests/cases").join(folder)).unwrap();
    let folders: Vec<PathBuf> = cases.map(|entry| entry.unwrap().path()).collect();
    assert_eq!(folders.len(), 40);
    for folder in folders {
        let wanted = fs::read_to_string(folder.join("result")).unwrap();
        same(&text_of(&folder.join("block"), &folder), &wanted, &folder);
    }
}

#[test]
fn results_under_rules_two_are_those_of_the_model() {
    results_are_those_of_the_model("rules2");
}

#[test]
fn results_under_rules_three_are_those_of_the_model() {
    results_are_those_of_the_model("rules3");
}

/// RVSTM names the program.
#[test]
fn results_are_those_of_seq() {
    let program = match std::env::var_os("RVSTM") {
        Some(program) => PathBuf::from(program),
        None => return eprintln!("skipped: RVSTM names no program"),
    };
    let cases = [
        ("examples/token", "token.block"),
        ("examples/exchange", "exchange.block"),
        ("examples/fees", "fees.block"),
        ("tests/cases", "blocks/counter-200.block"),
        ("tests/cases", "blocks/token-200.block"),
    ];
    for (folder, name) in cases {
        let folder = top().join(folder);
        let done = Command::new(&program).arg("seq").arg(name).current_dir(&folder).output().unwrap();
        assert!(done.status.success(), "{}", String::from_utf8_lossy(&done.stderr));
        same(&text_of(&folder.join(name), &folder), &String::from_utf8(done.stdout).unwrap(), Path::new(name));
    }
}
