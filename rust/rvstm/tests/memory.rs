//! Want of memory. Here malloc and realloc refuse the library some allocations; the test's own go past them. Not for valgrind,
//! which replaces malloc.

use std::alloc::{GlobalAlloc, Layout};
use std::cell::Cell;
use std::ffi::c_void;
use std::{fs, ptr};

use rvstm::{Block, CallError, Fault, Key, LoadError, Program, Rules, State};

extern "C" {
    fn __libc_malloc(size: usize) -> *mut c_void;
    fn __libc_memalign(align: usize, size: usize) -> *mut c_void;
    fn __libc_realloc(bytes: *mut c_void, size: usize) -> *mut c_void;
    fn __libc_free(bytes: *mut c_void);
}

struct Own;

// SAFETY: it is the C library's allocator.
unsafe impl GlobalAlloc for Own {
    unsafe fn alloc(&self, layout: Layout) -> *mut u8 {
        __libc_memalign(layout.align().max(16), layout.size()).cast()
    }

    unsafe fn dealloc(&self, bytes: *mut u8, _: Layout) {
        __libc_free(bytes.cast());
    }
}

#[global_allocator]
static OWN: Own = Own;

thread_local! {
    /// So many allocations of the library are refused next, on this thread.
    static LEFT: Cell<u32> = const { Cell::new(0) };
    /// So many were refused.
    static REFUSED: Cell<u32> = const { Cell::new(0) };
}

fn is_refused() -> bool {
    let left = LEFT.with(Cell::get);
    if left > 0 {
        LEFT.with(|count| count.set(left - 1));
        REFUSED.with(|count| count.set(count.get() + 1));
    }
    left > 0
}

/// # Safety
/// That of malloc.
#[no_mangle]
pub unsafe extern "C" fn malloc(size: usize) -> *mut c_void {
    if is_refused() {
        return ptr::null_mut();
    }
    __libc_malloc(size)
}

/// # Safety
/// That of realloc.
#[no_mangle]
pub unsafe extern "C" fn realloc(bytes: *mut c_void, size: usize) -> *mut c_void {
    if is_refused() {
        return ptr::null_mut();
    }
    __libc_realloc(bytes, size)
}

/// What comes if the next allocations are refused, and how many were.
fn refusing<T>(count: u32, what: impl FnOnce() -> T) -> (T, u32) {
    LEFT.with(|left| left.set(count));
    let came = what();
    LEFT.with(|left| left.set(0));
    (came, REFUSED.with(|refused| refused.replace(0)))
}

/// After each answer so many allocations are refused.
struct Refusing(u32);

impl State for Refusing {
    fn get(&self, key: &Key) -> Option<Vec<u8>> {
        LEFT.with(|left| left.set(self.0));
        Some(vec![key[0], 0, 0, 0])
    }
}

/// The counter counts up the key that is its input.
fn counter() -> Vec<u8> {
    fs::read("../../examples/counter/counter.elf").unwrap()
}

/// Counts up the keys from 1 to 3.
fn counts(program: &Program) -> Block {
    let mut block = Block::new(Rules::One);
    for first in 1..=3 {
        block.call(program, 1_000, &[first; 32]).unwrap();
    }
    block
}

#[test]
fn what_can_not_be_opened_or_added_is_refused() {
    let file = counter();
    let (loaded, refused) = refusing(1, || Program::load(&file));
    let error = loaded.unwrap_err();
    assert_eq!((&error, error.to_string().as_str(), refused), (&LoadError::NoMemory, "elf Memory 16", 1));

    let program = Program::load(&file).unwrap();
    let mut block = Block::new(Rules::One);
    let mut adding = |input: &[u8], count| refusing(count, || block.call(&program, 1_000, input).map(drop));
    assert_eq!(adding(&[1; 32], 1), (Err(CallError::NoMemory), 1));
    assert_eq!(adding(&[1; 32], 0), (Ok(()), 0));
    assert_eq!(adding(&[2; 4_096], 1), (Err(CallError::NoMemory), 1));
    assert_eq!(CallError::NoMemory.to_string(), "memory ran out");
    assert_eq!(block.run(&Refusing(0)).unwrap().changes, [([1; 32], Some(vec![2, 0, 0, 0]))]);
}

#[test]
fn a_run_continues_when_there_is_memory_again() {
    let program = Program::load(&counter()).unwrap();
    let (wanted, refused) = refusing(0, || counts(&program).run(&Refusing(0)).unwrap());
    assert_eq!((&wanted.changes[2], refused), (&([3; 32], Some(vec![4, 0, 0, 0])), 0));
    for count in 1..=8 {
        let mut block = counts(&program);
        let (came, refused) = refusing(0, || block.run(&Refusing(count)).unwrap());
        assert_eq!(came, wanted);
        assert!(refused >= 3, "{refused} of {count} after each of three keys");
    }
}

#[test]
fn a_run_without_memory_is_given_up() {
    let program = Program::load(&counter()).unwrap();
    let mut block = counts(&program);
    let (came, refused) = refusing(0, || block.run(&Refusing(u32::MAX)));
    assert_eq!(came, Err(Fault::Memory));
    assert!(refused > 8, "{refused}");
    assert_eq!(Fault::Memory.to_string(), "memory ran out");
    let outcome = block.call(&program, 1_000, &[1; 32]).unwrap().run(&Refusing(0)).unwrap();
    assert_eq!(outcome.changes, [([1; 32], Some(vec![2, 0, 0, 0]))]);
}
