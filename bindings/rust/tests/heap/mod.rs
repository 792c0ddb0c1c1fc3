//! The system's memory, of which a thread's requests are noted, and refused where a test says so.

#![allow(dead_code)] // (each test takes a part of it)

use std::alloc::{GlobalAlloc, Layout, System};
use std::cell::Cell;
use std::ptr::null_mut;

thread_local! {
    /// How many requests are granted before one is refused; usize::MAX where none is.
    static GRANTED: Cell<usize> = const { Cell::new(usize::MAX) };
    /// Whether the requests after that one are granted.
    static ONCE: Cell<bool> = const { Cell::new(false) };
    static REFUSED: Cell<bool> = const { Cell::new(false) };
    /// How many bytes the first requests are for, and how many requests there were.
    static ASKED: Cell<([usize; 8], usize)> = const { Cell::new(([0; 8], 0)) };
    /// How many bytes the thread holds.
    static HELD: Cell<usize> = const { Cell::new(0) };
}

struct Heap;

#[global_allocator]
static HEAP: Heap = Heap;

/// Notes a request, and returns whether it is refused.
fn is_refused(bytes: usize) -> bool {
    let (mut first, count) = ASKED.with(Cell::get);
    if let Some(one) = first.get_mut(count) {
        *one = bytes;
    }
    ASKED.with(|asked| asked.set((first, count + 1)));
    let left = GRANTED.with(Cell::get);
    if left == 0 {
        REFUSED.with(|refused| refused.set(true));
    }
    let then = match left {
        usize::MAX => left,
        0 if ONCE.with(Cell::get) => usize::MAX,
        _ => left.saturating_sub(1),
    };
    GRANTED.with(|granted| granted.set(then));
    left == 0
}

/// Notes what the thread holds more, and what it gives back.
fn hold(at: *mut u8, more: usize, less: usize) -> *mut u8 {
    if !at.is_null() {
        HELD.with(|held| held.set(held.get().wrapping_add(more).wrapping_sub(less)));
    }
    at
}

// SAFETY: each call is the system's, or returns null. What is noted is in cells without a destructor, which take no memory.
unsafe impl GlobalAlloc for Heap {
    unsafe fn alloc(&self, layout: Layout) -> *mut u8 {
        if is_refused(layout.size()) {
            return null_mut();
        }
        hold(System.alloc(layout), layout.size(), 0)
    }

    unsafe fn dealloc(&self, at: *mut u8, layout: Layout) {
        hold(at, 0, layout.size());
        System.dealloc(at, layout)
    }

    unsafe fn realloc(&self, at: *mut u8, layout: Layout, size: usize) -> *mut u8 {
        if is_refused(size) {
            return null_mut();
        }
        hold(System.realloc(at, layout, size), size, layout.size())
    }
}

/// What a call returns where all requests for memory after `requests` are refused, and whether one was.
pub fn with<T>(requests: usize, call: impl FnOnce() -> T) -> (T, bool) {
    REFUSED.with(|refused| refused.set(false));
    GRANTED.with(|granted| granted.set(requests));
    let answer = call();
    GRANTED.with(|granted| granted.set(usize::MAX));
    (answer, REFUSED.with(Cell::get))
}

/// What a call returns where the request after `requests` is refused, and all after it are granted.
pub fn with_one_refused<T>(requests: usize, call: impl FnOnce() -> T) -> (T, bool) {
    ONCE.with(|once| once.set(true));
    let answer = with(requests, call);
    ONCE.with(|once| once.set(false));
    answer
}

/// What a call returns, and how many bytes each of its requests is for (of the first eight).
pub fn asked_by<T>(call: impl FnOnce() -> T) -> (T, Vec<usize>) {
    ASKED.with(|asked| asked.set(([0; 8], 0)));
    let answer = call();
    let (first, count) = ASKED.with(Cell::get);
    (answer, first[..count.min(8)].to_vec())
}

/// How many bytes this thread holds.
pub fn held() -> usize {
    HELD.with(Cell::get)
}
