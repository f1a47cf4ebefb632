//! The calls of `include/rvstm.h`, as C has them. The header says what each does, what it returns, and the duties of a caller. The
//! crate `rvstm` wraps those for blocks safely.
//!
//! The build links `librvstm.a`. The environment variable RVSTM_LIBRARY names its folder.

#![no_std]
#![allow(non_camel_case_types)]

use core::ffi::c_void;

/// The version of the header of which these declarations are.
pub const RVSTM_VERSION: u32 = 2000;

pub const RVSTM_DONE: u32 = 0;
pub const RVSTM_REFUSED: u32 = 1;
pub const RVSTM_CLOSED: u32 = 2;
pub const RVSTM_ALREADY_OPEN: u32 = 3;
pub const RVSTM_FAILED: u32 = 4;
pub const RVSTM_NO_MEMORY: u32 = 5;
pub const RVSTM_SHORT_BUFFER: u32 = 6;
pub const RVSTM_BAD_SETTINGS: u32 = 7;
pub const RVSTM_KEY: u32 = 8;
pub const RVSTM_ENDED: u32 = 9;
pub const RVSTM_PAUSED: u32 = 10;
pub const RVSTM_WRONG_STAGE: u32 = 11;
pub const RVSTM_BAD_RULES: u32 = 12;
pub const RVSTM_TOO_MANY_CALLS: u32 = 13;
pub const RVSTM_BAD_GAS: u32 = 14;
pub const RVSTM_LONG_INPUT: u32 = 15;
pub const RVSTM_NOT_ASKED: u32 = 16;
pub const RVSTM_LONG_VALUE: u32 = 17;
pub const RVSTM_NO_ENTRY: u32 = 18;

pub const RVSTM_NO_LIMIT: u64 = u64::MAX;

pub const RVSTM_END_RETURNED: u32 = 0;
pub const RVSTM_END_REVERTED: u32 = 1;
pub const RVSTM_END_OUT_OF_GAS: u32 = 2;
pub const RVSTM_END_ILLEGAL: u32 = 3;
pub const RVSTM_END_MISALIGNED: u32 = 4;
pub const RVSTM_END_MEMORY_FAULT: u32 = 5;
pub const RVSTM_END_FETCH_FAULT: u32 = 6;
pub const RVSTM_END_BREAKPOINT: u32 = 7;
pub const RVSTM_END_UNKNOWN_CALL: u32 = 8;
pub const RVSTM_END_BAD_LENGTH: u32 = 9;
pub const RVSTM_END_TOO_MANY_WRITES: u32 = 10;

pub const RVSTM_WRITE_VALUE: u32 = 0;
pub const RVSTM_WRITE_GONE: u32 = 1;
pub const RVSTM_WRITE_SUM: u32 = 2;

/// A handle, which begins as [`rvstm_session::CLOSED`].
#[repr(C)]
#[derive(Debug)]
pub struct rvstm_session {
    at: *mut c_void,
    full: bool,
}

/// A handle, which begins as [`rvstm_image::CLOSED`].
#[repr(C)]
#[derive(Debug)]
pub struct rvstm_image {
    at: *mut c_void,
    full: bool,
}

/// A handle, which begins as [`rvstm_block::CLOSED`].
#[repr(C)]
#[derive(Debug)]
pub struct rvstm_block {
    at: *mut c_void,
    full: bool,
}

impl rvstm_session {
    /// The bytes before it is opened.
    pub const CLOSED: rvstm_session = rvstm_session { at: core::ptr::null_mut(), full: false };
}

impl rvstm_image {
    /// The bytes before it is opened.
    pub const CLOSED: rvstm_image = rvstm_image { at: core::ptr::null_mut(), full: false };
}

impl rvstm_block {
    /// The bytes before it is opened.
    pub const CLOSED: rvstm_block = rvstm_block { at: core::ptr::null_mut(), full: false };
}

#[repr(C)]
#[derive(Clone, Copy, Debug)]
pub struct rvstm_settings {
    pub frame_limit: u64,
    pub frame_gas: u64,
    pub digest: bool,
    pub brief: bool,
}

#[repr(C)]
#[derive(Clone, Copy, Debug)]
pub struct rvstm_refusal_parts {
    pub line: usize,
    pub number: u32,
    pub area: [u8; 8],
    pub name: [u8; 24],
}

#[repr(C)]
#[derive(Clone, Copy, Debug)]
pub struct rvstm_key {
    pub bytes: [u8; 32],
}

#[repr(C)]
#[derive(Clone, Copy, Debug)]
pub struct rvstm_receipt {
    pub end: u32,
    pub gas: u32,
    pub pc: u32,
    pub registers: [u32; 32],
    pub output_length: u32,
    pub writes: u32,
}

#[repr(C)]
#[derive(Clone, Copy, Debug)]
pub struct rvstm_write {
    pub amount: u64,
    pub kind: u32,
    pub length: u32,
    pub key: [u8; 32],
    pub value: [u8; 256],
}

#[repr(C)]
#[derive(Clone, Copy, Debug)]
pub struct rvstm_change {
    pub length: u32,
    pub present: bool,
    pub key: [u8; 32],
    pub value: [u8; 256],
}

#[repr(C)]
#[derive(Clone, Copy, Debug)]
pub struct rvstm_result_entries {
    pub receipts: usize,
    pub changes: usize,
}

#[rustfmt::skip] // one line each, which the test reads
extern "C" {
    pub fn rvstm_version() -> u32;
    pub fn rvstm_open(session: *mut rvstm_session) -> u32;
    pub fn rvstm_open_with(session: *mut rvstm_session, settings: *const rvstm_settings) -> u32;
    pub fn rvstm_program(session: *mut rvstm_session, file: *const u8, file_length: usize) -> u32;
    pub fn rvstm_forget(session: *mut rvstm_session, name: *const u8, name_length: usize) -> u32;
    pub fn rvstm_programs(session: *mut rvstm_session) -> u32;
    pub fn rvstm_frame(session: *mut rvstm_session, block: *const u8, block_length: usize) -> u32;
    pub fn rvstm_try(session: *mut rvstm_session, block: *const u8, block_length: usize) -> u32;
    pub fn rvstm_last(session: *mut rvstm_session) -> u32;
    pub fn rvstm_get(session: *mut rvstm_session, key: *const u8, key_length: usize) -> u32;
    pub fn rvstm_list(session: *mut rvstm_session, from: *const u8, from_length: usize, count: u64) -> u32;
    pub fn rvstm_dump(session: *mut rvstm_session) -> u32;
    pub fn rvstm_begin(session: *mut rvstm_session, height: u64, digest: *const u8, digest_length: usize, block: *const u8, block_length: usize) -> u32;
    pub fn rvstm_state(session: *mut rvstm_session) -> u32;
    pub fn rvstm_answer_length(session: *mut rvstm_session) -> usize;
    pub fn rvstm_answer(session: *mut rvstm_session, buffer: *mut u8, buffer_length: usize) -> u32;
    pub fn rvstm_refusal(session: *mut rvstm_session, parts: *mut rvstm_refusal_parts) -> u32;
    pub fn rvstm_close(session: *mut rvstm_session) -> u32;

    pub fn rvstm_image_open(image: *mut rvstm_image, file: *const u8, file_length: usize, parts: *mut rvstm_refusal_parts) -> u32;
    pub fn rvstm_image_close(image: *mut rvstm_image) -> u32;
    pub fn rvstm_block_open(block: *mut rvstm_block, rules: u32) -> u32;
    pub fn rvstm_calls_add(block: *mut rvstm_block, image: *mut rvstm_image, gas: u32, input: *const u8, input_length: usize) -> u32;
    pub fn rvstm_run_go(block: *mut rvstm_block, key: *mut rvstm_key) -> u32;
    pub fn rvstm_run_base(block: *mut rvstm_block, present: bool, value: *const u8, value_length: usize) -> u32;
    pub fn rvstm_result_counts(block: *mut rvstm_block, entries: *mut rvstm_result_entries) -> u32;
    pub fn rvstm_result_receipt(block: *mut rvstm_block, call: usize, receipt: *mut rvstm_receipt) -> u32;
    pub fn rvstm_result_output(block: *mut rvstm_block, call: usize, buffer: *mut u8, buffer_length: usize) -> u32;
    pub fn rvstm_result_write(block: *mut rvstm_block, call: usize, index: usize, write: *mut rvstm_write) -> u32;
    pub fn rvstm_result_change(block: *mut rvstm_block, index: usize, change: *mut rvstm_change) -> u32;
    pub fn rvstm_block_close(block: *mut rvstm_block) -> u32;
}
