//! The heap, of which WebAssembly has none.
//!
//! The memory holds, from its low end: the stack, the module's data, the open fonts and the arguments of a call (all of which
//! the loader in `subsetter.mjs` places), and after them this heap. The loader calls `heap_start` before each call with the
//! end of what it has placed, and the heap then forgets every block of the call before. So no call finds the memory more cut
//! up than the first did.
//!
//! A block that is given back goes to the list of its size, and is taken from there when a block of that size is wanted; there
//! are four sizes between a power of two and the next.

use std::alloc::{GlobalAlloc, Layout};
use std::arch::wasm32::{memory_grow, memory_size};
use std::cell::UnsafeCell;
use std::{cmp, ptr};

/// Every block begins at a multiple of this, and has a multiple of it as its size. No list of the crate wants more.
const ALIGNMENT: usize = 16;
/// The bytes of a page of WebAssembly.
const PAGE: usize = 65536;
/// Four for each power of two up to 2^31, which no request passes.
const LISTS: usize = 4 * 31;

struct Blocks {
    /// Where the next new block begins.
    top: usize,
    /// For each size the first block that was given back, which holds the address of the next; 0 where there is none.
    given_back: [usize; LISTS],
}

pub struct Heap(UnsafeCell<Blocks>);

#[global_allocator]
static HEAP: Heap = Heap(UnsafeCell::new(Blocks::new(0)));

// SAFETY: the module has no second thread.
unsafe impl Sync for Heap {}

/// The size of a block for `bytes` bytes, and its list.
fn size_and_list(bytes: usize) -> (usize, usize) {
    if bytes <= 4 * ALIGNMENT {
        let units = cmp::max(1, (bytes + ALIGNMENT - 1) / ALIGNMENT);
        return (units * ALIGNMENT, units - 1);
    }
    let last = bytes - 1;
    let power = (usize::BITS - 1 - last.leading_zeros()) as usize;
    let step = 1 << (power - 2);
    let size = (last | (step - 1)) + 1;
    (size, 4 * power + last / step % 4)
}

/// Lets the memory end at `end` or later: whether it does.
fn reach(end: usize) -> bool {
    let have = memory_size(0) * PAGE;
    if end <= have {
        return true;
    }
    let pages = (end - have + PAGE - 1) / PAGE;
    // (a sixteenth more than is needed, so that the memory isn't grown for each page)
    [pages + have / PAGE / 16, pages]
        .iter()
        .any(|more| memory_grow(0, *more) != usize::MAX)
}

impl Blocks {
    /// No blocks, from an address on.
    const fn new(top: usize) -> Self {
        Self {
            top,
            given_back: [0; LISTS],
        }
    }

    /// A block for `bytes` bytes, or null.
    ///
    /// # Safety
    ///
    /// Nothing else uses the memory from `top` on, nor the blocks in the lists.
    unsafe fn take(&mut self, bytes: usize) -> *mut u8 {
        let (size, list) = size_and_list(bytes);
        let at = self.given_back[list];
        if at != 0 {
            self.given_back[list] = unsafe { *(at as *const usize) };
            return at as *mut u8;
        }
        match self.top.checked_add(size) {
            Some(end) if reach(end) => {
                let at = self.top;
                self.top = end;
                at as *mut u8
            }
            _ => ptr::null_mut(),
        }
    }

    /// Takes a block of `bytes` bytes back.
    ///
    /// # Safety
    ///
    /// It is a block of this heap, and isn't used again.
    unsafe fn take_back(&mut self, at: *mut u8, bytes: usize) {
        let (_, list) = size_and_list(bytes);
        unsafe { *at.cast::<usize>() = self.given_back[list] };
        self.given_back[list] = at as usize;
    }
}

/// Forgets every block; the heap begins at `at`.
///
/// # Safety
///
/// No block is used again, and nothing else uses the memory from `at` on.
#[no_mangle]
pub unsafe extern "C" fn heap_start(at: usize) {
    let top = (at + ALIGNMENT - 1) / ALIGNMENT * ALIGNMENT;
    unsafe { *HEAP.0.get() = Blocks::new(top) };
}

// SAFETY: a block has the size of its list, so that it serves each request of that list, and is in a list only while nobody
// uses it. Null is returned where there is no memory.
unsafe impl GlobalAlloc for Heap {
    unsafe fn alloc(&self, layout: Layout) -> *mut u8 {
        if layout.align() > ALIGNMENT {
            return ptr::null_mut();
        }
        unsafe { (*self.0.get()).take(layout.size()) }
    }

    unsafe fn dealloc(&self, at: *mut u8, layout: Layout) {
        unsafe { (*self.0.get()).take_back(at, layout.size()) }
    }

    unsafe fn realloc(&self, at: *mut u8, layout: Layout, bytes: usize) -> *mut u8 {
        if size_and_list(bytes) == size_and_list(layout.size()) {
            return at;
        }
        let blocks = self.0.get();
        let moved = unsafe { (*blocks).take(bytes) };
        if !moved.is_null() {
            unsafe {
                ptr::copy_nonoverlapping(at, moved, cmp::min(layout.size(), bytes));
                (*blocks).take_back(at, layout.size());
            }
        }
        moved
    }
}
