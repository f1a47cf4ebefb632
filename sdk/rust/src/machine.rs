//! The storage calls on the ledger's machine: an `ecall` with the call's number in a7.

use core::arch::asm;

use crate::Key;

const READ: u32 = 0;
const WRITE: u32 = 1;
const REMOVE: u32 = 2;
const RETURN: u32 = 3;
const REVERT: u32 = 4;
const ADD: u32 = 5;

fn call(number: u32, key: &Key, second: u32, third: u32) -> u32 {
    let mut answer = key.0.as_ptr() as u32;
    // SAFETY: what `second` and `third` say is lent by the caller; the machine changes no other register.
    unsafe {
        asm!("ecall", inout("a0") answer, in("a1") second, in("a2") third, in("a7") number, options(nostack));
    }
    answer
}

fn end(number: u32, output: &[u8]) -> ! {
    // SAFETY: the output is lent, and the call ends here.
    unsafe {
        asm!("ecall", in("a0") output.as_ptr(), in("a1") output.len(), in("a7") number, options(noreturn, nostack));
    }
}

pub(crate) fn read(key: &Key, buffer: &mut [u8]) -> u32 {
    call(READ, key, buffer.as_mut_ptr() as u32, buffer.len() as u32)
}

pub(crate) fn write(key: &Key, value: &[u8]) {
    call(WRITE, key, value.as_ptr() as u32, value.len() as u32);
}

pub(crate) fn remove(key: &Key) {
    call(REMOVE, key, 0, 0);
}

pub(crate) fn add(key: &Key, amount: u64) {
    call(ADD, key, amount as u32, (amount >> 32) as u32);
}

pub(crate) fn return_output(output: &[u8]) -> ! {
    end(RETURN, output)
}

pub(crate) fn revert(output: &[u8]) -> ! {
    end(REVERT, output)
}
