//! The handles of the library. Each is closed when it is dropped. Only this module calls C, and says which threads may.

use std::cell::UnsafeCell;

use rvstm_sys as sys;

use crate::outcome::{End, Key, Outcome, Receipt, Write};
use crate::program::LoadError;

const LONGEST_OUTPUT: usize = 256;
const NO_PARTS: sys::rvstm_refusal_parts = sys::rvstm_refusal_parts { line: 0, number: 0, area: [0; 8], name: [0; 24] };
const NO_ENTRIES: sys::rvstm_result_entries = sys::rvstm_result_entries { receipts: 0, changes: 0 };
const NO_RECEIPT: sys::rvstm_receipt =
    sys::rvstm_receipt { end: 0, gas: 0, pc: 0, registers: [0; 32], output_length: 0, writes: 0 };
const NO_WRITE: sys::rvstm_write = sys::rvstm_write { amount: 0, kind: 0, length: 0, key: [0; 32], value: [0; 256] };
const NO_CHANGE: sys::rvstm_change = sys::rvstm_change { length: 0, present: false, key: [0; 32], value: [0; 256] };

/// A loaded program. The library gets it with the right to change it, so it is in a cell.
pub(crate) struct Image(UnsafeCell<sys::rvstm_image>);

// SAFETY: duty 3 of include/rvstm.h lets threads use a handle one after another. The cell lets no two share it (`!Sync`).
unsafe impl Send for Image {}

impl Image {
    pub(crate) fn open(file: &[u8]) -> Result<Image, LoadError> {
        let image = Image(UnsafeCell::new(sys::rvstm_image::CLOSED));
        let mut parts = NO_PARTS;
        // SAFETY: the handle is closed and no other call has it; the length is the file's; the parts are a whole struct.
        match unsafe { sys::rvstm_image_open(image.0.get(), file.as_ptr(), file.len(), &mut parts) } {
            sys::RVSTM_DONE => Ok(image),
            sys::RVSTM_REFUSED => {
                Err(LoadError::Refused { area: text(&parts.area), name: text(&parts.name), number: parts.number })
            }
            sys::RVSTM_NO_MEMORY => Err(LoadError::NoMemory),
            status => unexpected("rvstm_image_open", status),
        }
    }
}

impl Drop for Image {
    fn drop(&mut self) {
        // SAFETY: no other call has the handle. One that was not opened stays closed.
        unsafe { sys::rvstm_image_close(self.0.get()) };
    }
}

/// What a run comes to.
pub(crate) enum Step {
    Key(Key),
    Ended,
    Paused,
}

/// An open block.
pub(crate) struct Calls(sys::rvstm_block);

// SAFETY: duty 3 of include/rvstm.h lets threads use a handle one after another. Each call here takes `&mut self`.
unsafe impl Send for Calls {}

impl Calls {
    /// Opens a block without calls, or returns None if memory ran out.
    pub(crate) fn open(rules: u32) -> Option<Calls> {
        let mut calls = Calls(sys::rvstm_block::CLOSED);
        // SAFETY: the handle is closed and no other call has it.
        match unsafe { sys::rvstm_block_open(&mut calls.0, rules) } {
            sys::RVSTM_DONE => Some(calls),
            sys::RVSTM_NO_MEMORY => None,
            status => unexpected("rvstm_block_open", status),
        }
    }

    /// Adds a call, and returns the status.
    pub(crate) fn add(&mut self, image: &Image, gas: u32, input: &[u8]) -> u32 {
        // SAFETY: no other call has either handle, since the image is not shared with other threads; the length is the input's.
        unsafe { sys::rvstm_calls_add(&mut self.0, image.0.get(), gas, input.as_ptr(), input.len()) }
    }

    /// Runs the calls until they ask for a key, have ended, or lack memory.
    pub(crate) fn go(&mut self) -> Step {
        let mut key = sys::rvstm_key { bytes: [0; 32] };
        // SAFETY: no other call has the handle; the key is a whole struct.
        match unsafe { sys::rvstm_run_go(&mut self.0, &mut key) } {
            sys::RVSTM_KEY => Step::Key(key.bytes),
            sys::RVSTM_ENDED => Step::Ended,
            sys::RVSTM_PAUSED => Step::Paused,
            status => unexpected("rvstm_run_go", status),
        }
    }

    /// Answers the key that is asked for, and returns the status.
    pub(crate) fn base(&mut self, value: Option<&[u8]>) -> u32 {
        let bytes = value.unwrap_or(&[]);
        // SAFETY: no other call has the handle; the length is that of the bytes.
        unsafe { sys::rvstm_run_base(&mut self.0, value.is_some(), bytes.as_ptr(), bytes.len()) }
    }

    /// The result of calls that have ended.
    pub(crate) fn outcome(&mut self) -> Outcome {
        let mut entries = NO_ENTRIES;
        // SAFETY: no other call has the handle; the entries are a whole struct.
        done("rvstm_result_counts", unsafe { sys::rvstm_result_counts(&mut self.0, &mut entries) });
        Outcome {
            receipts: (0..entries.receipts).map(|call| self.receipt(call)).collect(),
            changes: (0..entries.changes).map(|index| self.change(index)).collect(),
        }
    }

    fn receipt(&mut self, call: usize) -> Receipt {
        let mut receipt = NO_RECEIPT;
        let mut output = [0; LONGEST_OUTPUT];
        // SAFETY: no other call has the handle; the receipt is a whole struct.
        done("rvstm_result_receipt", unsafe { sys::rvstm_result_receipt(&mut self.0, call, &mut receipt) });
        // SAFETY: no other call has the handle; the length is the buffer's.
        let status = unsafe { sys::rvstm_result_output(&mut self.0, call, output.as_mut_ptr(), output.len()) };
        done("rvstm_result_output", status);
        Receipt {
            end: End::of_number(receipt.end).unwrap_or_else(|| unexpected("an end", receipt.end)),
            gas: receipt.gas,
            pc: receipt.pc,
            registers: receipt.registers,
            output: output[..receipt.output_length as usize].to_vec(),
            writes: (0..receipt.writes as usize).map(|index| self.write(call, index)).collect(),
        }
    }

    fn write(&mut self, call: usize, index: usize) -> (Key, Write) {
        let mut write = NO_WRITE;
        // SAFETY: no other call has the handle; the write is a whole struct.
        done("rvstm_result_write", unsafe { sys::rvstm_result_write(&mut self.0, call, index, &mut write) });
        let what = match write.kind {
            sys::RVSTM_WRITE_VALUE => Write::Value(write.value[..write.length as usize].to_vec()),
            sys::RVSTM_WRITE_GONE => Write::Gone,
            sys::RVSTM_WRITE_SUM => Write::Sum(write.amount),
            kind => unexpected("a kind of write", kind),
        };
        (write.key, what)
    }

    fn change(&mut self, index: usize) -> (Key, Option<Vec<u8>>) {
        let mut change = NO_CHANGE;
        // SAFETY: no other call has the handle; the change is a whole struct.
        done("rvstm_result_change", unsafe { sys::rvstm_result_change(&mut self.0, index, &mut change) });
        (change.key, change.present.then(|| change.value[..change.length as usize].to_vec()))
    }
}

impl Drop for Calls {
    fn drop(&mut self) {
        // SAFETY: no other call has the handle. One that was not opened stays closed.
        unsafe { sys::rvstm_block_close(&mut self.0) };
    }
}

/// A text, without the zeros at its end.
fn text(bytes: &[u8]) -> String {
    String::from_utf8_lossy(bytes).trim_end_matches('\0').to_owned()
}

fn done(call: &str, status: u32) {
    if status != sys::RVSTM_DONE {
        unexpected(call, status);
    }
}

/// The library is not the one of the header: it returned a number that the header does not list there.
pub(crate) fn unexpected(what: &str, number: u32) -> ! {
    panic!("{what} of librvstm.a is {number}, which its header does not list there")
}
