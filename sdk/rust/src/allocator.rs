//! A bump allocator: each block follows the one before. Only the last one can be freed or grow in place,
//! since a call is short and starts with memory of its own.

use core::{
    alloc::{GlobalAlloc, Layout},
    cell::Cell,
    ops::Range,
    ptr::{addr_of, copy_nonoverlapping},
};

use crate::revert;

extern "C" {
    // In contract.ld. Their addresses are what they say.
    static heap_start: u8;
    static heap_end: u8;
}

/// The addresses that no part of the program has.
#[allow(unused_unsafe)] // needed before Rust 1.82
fn free_memory() -> Range<usize> {
    // SAFETY: the addresses are taken, and nothing is read there.
    unsafe { addr_of!(heap_start) as usize..addr_of!(heap_end) as usize }
}

/// Where the next block may begin; 0 before the first one.
struct Bump(Cell<usize>);

// SAFETY: a call has one thread.
unsafe impl Sync for Bump {}

#[global_allocator]
static ALLOCATOR: Bump = Bump(Cell::new(0));

impl Bump {
    fn next(&self) -> usize {
        self.0.get().max(free_memory().start)
    }

    /// Reverts if the free memory is too short.
    fn take(&self, start: usize, size: usize) -> *mut u8 {
        match start.checked_add(size) {
            Some(end) if end <= free_memory().end => self.0.set(end),
            _ => revert(b"out of memory"),
        }
        start as *mut u8
    }

    fn is_last(&self, block: *mut u8, layout: Layout) -> bool {
        block as usize + layout.size() == self.next()
    }
}

// SAFETY: blocks do not overlap, since each begins at the end of the one before.
unsafe impl GlobalAlloc for Bump {
    unsafe fn alloc(&self, layout: Layout) -> *mut u8 {
        let next = self.next();
        let padding = next.wrapping_neg() % layout.align();
        self.take(next + padding, layout.size())
    }

    unsafe fn dealloc(&self, block: *mut u8, layout: Layout) {
        if self.is_last(block, layout) {
            self.0.set(block as usize);
        }
    }

    unsafe fn realloc(&self, block: *mut u8, layout: Layout, size: usize) -> *mut u8 {
        if self.is_last(block, layout) {
            return self.take(block as usize, size);
        }
        let moved = self.alloc(Layout::from_size_align_unchecked(size, layout.align()));
        copy_nonoverlapping(block, moved, size.min(layout.size()));
        moved
    }
}
