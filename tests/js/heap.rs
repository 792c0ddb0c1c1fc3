//! The heap alone, under names that its test calls.

#![deny(unsafe_op_in_unsafe_fn)]

#[path = "../../bindings/js/module/heap.rs"]
mod heap;

use std::alloc::{alloc, dealloc, realloc, Layout};

fn layout(bytes: usize, alignment: usize) -> Layout {
    Layout::from_size_align(bytes, alignment).expect("the test gives such")
}

/// # Safety
///
/// As of [`alloc`].
#[no_mangle]
pub unsafe extern "C" fn test_alloc(bytes: usize, alignment: usize) -> *mut u8 {
    unsafe { alloc(layout(bytes, alignment)) }
}

/// # Safety
///
/// As of [`realloc`].
#[no_mangle]
pub unsafe extern "C" fn test_realloc(at: *mut u8, bytes: usize, more: usize) -> *mut u8 {
    unsafe { realloc(at, layout(bytes, 8), more) }
}

/// # Safety
///
/// As of [`dealloc`].
#[no_mangle]
pub unsafe extern "C" fn test_dealloc(at: *mut u8, bytes: usize) {
    unsafe { dealloc(at, layout(bytes, 8)) }
}
