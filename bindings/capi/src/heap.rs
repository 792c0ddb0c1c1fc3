//! Memory from C's `malloc`, as the header says.

use std::alloc::{GlobalAlloc, Layout, System};
use std::ffi::c_void;
use std::mem::size_of;

extern "C" {
    fn malloc(size: usize) -> *mut c_void;
    fn realloc(at: *mut c_void, size: usize) -> *mut c_void;
    fn free(at: *mut c_void);
}

/// The alignment of each block that `malloc` gives, at the least. No list of the crate wants more.
const ALIGNMENT: usize = 2 * size_of::<usize>();

/// C's heap. What wants a larger alignment, as Rust's own library may, is the system's.
struct Heap;

#[global_allocator]
static HEAP: Heap = Heap;

// SAFETY: a block comes from `malloc` or from the system's allocator, by its alignment, and goes back to the same one, as the
// layout says it. Both answer null where there is no memory.
unsafe impl GlobalAlloc for Heap {
    unsafe fn alloc(&self, layout: Layout) -> *mut u8 {
        if layout.align() > ALIGNMENT {
            return unsafe { System.alloc(layout) };
        }
        unsafe { malloc(layout.size()) }.cast()
    }

    unsafe fn dealloc(&self, at: *mut u8, layout: Layout) {
        if layout.align() > ALIGNMENT {
            return unsafe { System.dealloc(at, layout) };
        }
        unsafe { free(at.cast()) }
    }

    unsafe fn realloc(&self, at: *mut u8, layout: Layout, size: usize) -> *mut u8 {
        if layout.align() > ALIGNMENT {
            return unsafe { System.realloc(at, layout, size) };
        }
        unsafe { realloc(at.cast(), size) }.cast()
    }
}

/// Gives the memory of a list back.
///
/// # Safety
///
/// The list was handed over by [`making`](crate::making), and isn't used again; or the count is 0.
pub unsafe fn give_back<T>(at: *const T, count: usize) {
    // (a list of no items has no memory of its own)
    if count != 0 {
        unsafe { free(at as *mut c_void) }
    }
}
