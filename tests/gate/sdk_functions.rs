//! The functions of the SDK in Rust, by the same inputs as sdk_functions.c, as far as Rust has them. tests/gate/sdk_functions.py says what has to come.
//! On this machine it reads lines RULES INPUT, the latter in hex, and prints the end and the output of each call.

#![cfg_attr(target_arch = "riscv32", no_std, no_main)]

use contract::{
    add, entry, mul_div_down, mul_div_up, read, remove, return_output, revert, sha256, table_key, table_key_of, tables, write, Cursor, Decimal,
    Key, OUTPUT_LIMIT,
};

tables! { ROWS: Table = T; }

const TAGS: [&str; 4] =
    ["", "t", "a.tag.of.23.bytes......", "a tag of 64 bytes, which is as long as a block of the digest is.."];

fn number(from: &[u8]) -> u64 {
    Cursor::over(from).take_u64()
}

/// Returns with some bytes and a number of 4 bytes after them.
fn return_both(bytes: &[u8], number: u32) -> ! {
    let mut out = [0; 40];
    out[..bytes.len()].copy_from_slice(bytes);
    out[bytes.len()..bytes.len() + 4].copy_from_slice(&number.to_le_bytes());
    return_output(&out[..bytes.len() + 4])
}

fn cursor(how: &[u8], from: &[u8]) -> ! {
    let mut cursor = Cursor::over(from);
    let mut out = [0; 32];
    let taken = match how[1] {
        0 => (cursor.take_u8() as u64, 1),
        1 => (cursor.take_u32() as u64, 4),
        2 => (cursor.take_u64(), 8),
        3 => {
            out = cursor.take_key().0;
            (0, 32)
        }
        4 => {
            out[..20].copy_from_slice(&cursor.take_account().bytes());
            (0, 20)
        }
        _ => {
            out[..how[2] as usize].copy_from_slice(cursor.take_bytes(how[2] as usize));
            (0, how[2] as usize)
        }
    };
    if taken.1 <= 8 && how[1] < 3 {
        out[..8].copy_from_slice(&taken.0.to_le_bytes());
    }
    if how[3] != 0 {
        cursor.take_end();
    }
    return_both(&out[..taken.1], cursor.left().len() as u32)
}

fn digest(how: &[u8], from: &[u8]) -> [u8; 32] {
    let tag = TAGS[how[3] as usize];
    match how[1] {
        1 => table_key(tag, &Key::try_from(from).unwrap_or(Key([0; 32]))).0,
        2 => table_key_of(tag, &[&from[..how[2] as usize], &from[how[2] as usize..]]).0,
        _ => sha256(from),
    }
}

fn rows(how: &[u8], from: &[u8]) -> ! {
    let row = &from[how[2] as usize..how[2] as usize + how[1] as usize];
    const NUMBER: Key = ROWS.constant_key(&0xfedc_ba98_7654_3210_u64.to_le_bytes());
    let mut out = [0; 96];
    out[..32].copy_from_slice(&ROWS.constant_key(b"a").0);
    out[32..64].copy_from_slice(&NUMBER.0);
    out[64..].copy_from_slice(&ROWS.key_of(row).0);
    return_output(&out)
}

fn storage(how: &[u8], from: &[u8]) {
    let key = Key::try_from(from).unwrap_or(Key([0; 32]));
    let length = |code: u8| (code as usize >> 1) * 64 + (code as usize & 1);
    let (first, mut second) = (length(how[2]), length(how[3]));
    let mut value = [0; 257];
    let mut buffer = [0; 257];
    value.iter_mut().enumerate().for_each(|(at, byte)| *byte = (at + 1) as u8);
    match how[1] {
        0 => write(&key, &value[..first]),
        1 => {
            write(&key, &value[..first]);
            remove(&key);
        }
        2 => {
            write(&key, &value[..if first == 64 { 8 } else { first }]);
            add(&key, number(from));
            second = 64;
        }
        3 => return_output(&value[..first]),
        4 => revert(&value[..first]),
        _ => {
            for number in 0..first as u32 + 192 {
                let mut key = Key([0; 32]);
                key.0[..4].copy_from_slice(&number.to_le_bytes());
                match how[3] {
                    0 => write(&key, &value[..1]),
                    1 => remove(&key),
                    _ => add(&key, 1),
                }
                write(&key, &[]);
            }
            return;
        }
    }
    let mut out = [0xff; OUTPUT_LIMIT];
    let found = match read(&key, &mut buffer[..second]) {
        Ok(Some(found)) if found.len() <= OUTPUT_LIMIT - 4 => {
            out[4..4 + found.len()].copy_from_slice(found);
            found.len()
        }
        Ok(Some(found)) => return_output(&(found.len() as u32).to_le_bytes()),
        Ok(None) => return_output(&out[..4]),
        Err(_) => return_output(&0xffff_fffe_u32.to_le_bytes()),
    };
    out[..4].copy_from_slice(&(found as u32).to_le_bytes());
    return_output(&out[..4 + found])
}

fn functions(input: &'static [u8]) -> Result<[u8; 0], &'static str> {
    let (how, from) = input.split_at(if input.len() < 4 { input.len() } else { 4 });
    match how[0] {
        1 => cursor(how, from),
        2 => return_output(Decimal::of(number(from)).as_ref()),
        3 => {
            let made = if how[1] == 0 { mul_div_down } else { mul_div_up };
            match made(number(from), number(&from[8..]), number(&from[16..])) {
                Some(quotient) => return_output(&quotient.to_le_bytes()),
                None if number(&from[16..]) == 0 => Err("division by zero"),
                None => Err("the quotient is too large"),
            }
        }
        5 => return_output(&digest(how, from)),
        7 => rows(how, from),
        9 => {
            storage(how, from);
            Ok([])
        }
        _ => Ok([]),
    }
}

entry!(functions);

#[cfg(not(target_arch = "riscv32"))]
fn main() {
    use contract::host::{Ending, Ledger};
    std::panic::set_hook(Box::new(|_| ()));
    for line in std::io::stdin().lines() {
        let line = line.expect("a line");
        let (rules, hex) = line.split_once(' ').expect("two words");
        let input: Vec<u8> = (0..hex.len()).step_by(2).map(|at| u8::from_str_radix(&hex[at..at + 2], 16).expect("hex")).collect();
        let (end, output) = match Ledger::new(rules.parse().expect("rules")).call(functions, &input) {
            Ending::Returned(output) => ("returned", output),
            Ending::Reverted(output) => ("reverted", output),
            Ending::Panicked(text) => ("panicked", text.into_bytes()),
            Ending::UnknownCall => ("unknown-call", vec![]),
            Ending::BadLength => ("bad-length", vec![]),
            Ending::TooManyWrites => ("too-many-writes", vec![]),
        };
        let output: String = output.iter().map(|byte| format!("{byte:02x}")).collect();
        println!("{end} {}", if output.is_empty() { "-" } else { &output });
    }
}
