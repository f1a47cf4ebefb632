//! A session in a Rust program: runs a block of examples/token, and compares with `rvstm seq`; is refused another one; and reads a
//! key and the session's counts.
//!
//! usage: embed RVSTM
//!
//! RVSTM is the built program. Started in examples/token. embed.expect has what it prints.

use std::ffi::c_void;
use std::process::Command;
use std::{env, fs, ptr, str};

/// What a call answers, as in include/rvstm.h.
const DONE: u32 = 0;
const REFUSED: u32 = 1;
const FAILED: u32 = 4;

#[repr(C)]
struct Handle {
    at: *mut c_void,
    full: bool,
}

#[repr(C)]
#[derive(Default)]
struct Parts {
    line: usize,
    number: u32,
    area: [u8; 8],
    name: [u8; 24],
}

extern "C" {
    fn rvstm_open(handle: *mut Handle) -> u32;
    fn rvstm_program(handle: *mut Handle, file: *const u8, file_length: usize) -> u32;
    fn rvstm_frame(handle: *mut Handle, block: *const u8, block_length: usize) -> u32;
    fn rvstm_get(handle: *mut Handle, key: *const u8, key_length: usize) -> u32;
    fn rvstm_dump(handle: *mut Handle) -> u32;
    fn rvstm_state(handle: *mut Handle) -> u32;
    fn rvstm_answer_length(handle: *mut Handle) -> usize;
    fn rvstm_answer(handle: *mut Handle, buffer: *mut u8, buffer_length: usize) -> u32;
    fn rvstm_refusal(handle: *mut Handle, parts: *mut Parts) -> u32;
    fn rvstm_close(handle: *mut Handle) -> u32;
}

/// A session of the library, which is closed when it is dropped. `&mut self` keeps it to one thread at a time.
struct Session(Handle);

impl Session {
    fn open() -> Result<Session, String> {
        let mut handle = Handle { at: ptr::null_mut(), full: false };
        match unsafe { rvstm_open(&mut handle) } {
            DONE => Ok(Session(handle)),
            _ => Err("no memory".into()),
        }
    }

    /// Hands in a program, and returns its name.
    fn program(&mut self, file: &[u8]) -> Result<String, String> {
        let status = unsafe { rvstm_program(&mut self.0, file.as_ptr(), file.len()) };
        let line = self.answer(status)?;
        Ok(text(&line).trim_end().to_owned())
    }

    fn frame(&mut self, block: &[u8]) -> Result<Vec<u8>, String> {
        let status = unsafe { rvstm_frame(&mut self.0, block.as_ptr(), block.len()) };
        self.answer(status)
    }

    fn get(&mut self, key: &str) -> Result<Vec<u8>, String> {
        let status = unsafe { rvstm_get(&mut self.0, key.as_ptr(), key.len()) };
        self.answer(status)
    }

    fn state(&mut self) -> Result<Vec<u8>, String> {
        let status = unsafe { rvstm_state(&mut self.0) };
        self.answer(status)
    }

    fn dump(&mut self) -> Result<Vec<u8>, String> {
        let status = unsafe { rvstm_dump(&mut self.0) };
        self.answer(status)
    }

    /// The answer to the last request, or why it was refused or failed.
    fn answer(&mut self, status: u32) -> Result<Vec<u8>, String> {
        match status {
            DONE => {
                let mut bytes = vec![0; unsafe { rvstm_answer_length(&mut self.0) }];
                unsafe { rvstm_answer(&mut self.0, bytes.as_mut_ptr(), bytes.len()) };
                Ok(bytes)
            }
            REFUSED | FAILED => {
                let mut parts = Parts::default();
                unsafe { rvstm_refusal(&mut self.0, &mut parts) };
                let line = if parts.line == 0 { String::new() } else { format!(", line {}", parts.line) };
                Err(format!("{} {} {}{line}", text(&parts.area), text(&parts.name), parts.number))
            }
            _ => Err(format!("a call answers {status}")),
        }
    }
}

impl Drop for Session {
    fn drop(&mut self) {
        unsafe { rvstm_close(&mut self.0) };
    }
}

/// A text, without the zeros behind it.
fn text(bytes: &[u8]) -> &str {
    str::from_utf8(bytes).unwrap_or_default().trim_end_matches('\0')
}

/// Compares a frame's answer and the storage with what `rvstm seq` prints.
fn compare(rvstm: &str, frame: &[u8], dump: &[u8]) -> Result<(), Box<dyn std::error::Error>> {
    let in_order = Command::new(rvstm).args(["seq", "token.block"]).output()?.stdout;
    // The result of `seq` has the storage before its line `end`; a dump has two lines before it.
    let receipts = frame.strip_suffix(b"end\n").ok_or("an answer without its end")?;
    let store = text(dump).splitn(3, '\n').nth(2).ok_or("a dump without its head")?;
    if [receipts, store.as_bytes(), b"end\n"].concat() != in_order {
        return Err("the session and seq differ".into());
    }
    println!("{} bytes, as seq", in_order.len());
    Ok(())
}

fn main() -> Result<(), Box<dyn std::error::Error>> {
    let rvstm = env::args().nth(1).ok_or("usage: embed RVSTM")?;
    let mut session = Session::open()?;
    let name = session.program(&fs::read("token.elf")?)?;
    let block = fs::read_to_string("token.block")?;
    let frame = session.frame(block.replace("program 0 token.elf\n", &format!("program 0 {name}\n")).as_bytes())?;
    compare(&rvstm, &frame, &session.dump()?)?;
    // This block has a path, and no name, and a session opens no file.
    if let Err(refusal) = session.frame(block.as_bytes()) {
        println!("refused {refusal}");
    }
    print!("{}", text(&session.get("61636374616c6963650000000000000000000000000000000000000000000014")?));
    print!("{}", text(&session.state()?));
    Ok(())
}
