//! Lists and buffers of the caller.

use crate::status::{DONE, TOO_SMALL};
use fonts::capi::pdf::{Entry, ReadLists};
use fonts::Embedded;
use std::{ptr, slice};

/// The items of a list. With a count of 0 the pointer isn't looked at.
///
/// # Safety
///
/// `count` items are at the pointer, aligned, and nobody writes them as long as they are used; or `count` is 0.
pub unsafe fn list<'a, T>(at: *const T, count: usize) -> &'a [T] {
    if count == 0 {
        return &[];
    }
    unsafe { slice::from_raw_parts(at, count) }
}

/// A buffer of the caller, which is written and never read.
pub struct Buffer<T> {
    at: *mut T,
    room: usize,
}

impl<T: Copy> Buffer<T> {
    /// A buffer for `room` items.
    ///
    /// # Safety
    ///
    /// There is room for `room` items at the pointer, aligned, that nothing else uses as long as the buffer is used; or `room`
    /// is 0.
    pub unsafe fn new(at: *mut T, room: usize) -> Self {
        Self { at, room }
    }

    fn holds(&self, items: &[T]) -> bool {
        items.len() <= self.room
    }

    /// Puts items at the front; where they have no room, nothing.
    fn begin_with(self, items: &[T]) {
        if self.holds(items) && !items.is_empty() {
            // SAFETY: there is room, as `new` requires it, and nothing else uses it, the items included.
            unsafe { ptr::copy_nonoverlapping(items.as_ptr(), self.at, items.len()) }
        }
    }
}

/// How many bytes the font has, how many CIDs there are, and how many widths.
#[derive(Clone, Copy, Debug, Eq, PartialEq)]
#[repr(C)]
pub struct Sizes {
    /// The bytes of the font.
    pub font: usize,
    /// The CIDs.
    pub cids: usize,
    /// The widths.
    pub widths: usize,
}

impl Sizes {
    /// Of nothing.
    pub const NONE: Self = Self {
        font: 0,
        cids: 0,
        widths: 0,
    };
}

/// Hands bytes over: their size, and the status. They are written only where all have room.
pub fn hand_bytes(answer: Result<&[u8], u32>, out: Buffer<u8>) -> (usize, u32) {
    hand_items(answer, out)
}

/// Hands items over: their count, and the status. They are written only where all have room.
pub fn hand_items<T: Copy>(answer: Result<&[T], u32>, out: Buffer<T>) -> (usize, u32) {
    let bytes = match answer {
        Ok(bytes) => bytes,
        Err(status) => return (0, status),
    };
    if !out.holds(bytes) {
        return (bytes.len(), TOO_SMALL);
    }
    out.begin_with(bytes);
    (bytes.len(), DONE)
}

/// The buffers for a font with its CIDs and widths.
pub struct Buffers {
    /// For the font.
    pub font: Buffer<u8>,
    /// For the CIDs.
    pub cids: Buffer<u16>,
    /// For the widths.
    pub widths: Buffer<u32>,
}

/// Hands a font with its CIDs and widths over: their sizes, and the status. They are written only where all have room.
pub fn hand_embedded(answer: Result<Embedded, u32>, out: Buffers) -> (Sizes, u32) {
    let made = match answer {
        Ok(made) => made,
        Err(status) => return (Sizes::NONE, status),
    };
    let sizes = Sizes {
        font: made.font.len(),
        cids: made.cids.len(),
        widths: made.widths.len(),
    };
    let Buffers { font, cids, widths } = out;
    if !font.holds(&made.font) || !cids.holds(&made.cids) || !widths.holds(&made.widths) {
        return (sizes, TOO_SMALL);
    }
    font.begin_with(&made.font);
    cids.begin_with(&made.cids);
    widths.begin_with(&made.widths);
    (sizes, DONE)
}

/// How many entries there are, and how many places of what the font lacks.
#[derive(Clone, Copy, Debug, Eq, PartialEq)]
#[repr(C)]
pub struct ReadSizes {
    /// The entries.
    pub entries: usize,
    /// The places.
    pub missing: usize,
}

/// Hands a text over that is read: its sizes, and the status. Both lists are written only where both have room.
pub fn hand_read(
    answer: Result<ReadLists, u32>,
    entries: Buffer<Entry>,
    missing: Buffer<usize>,
) -> (ReadSizes, u32) {
    let (read, status) = match answer {
        Ok(read) => (read, DONE),
        Err(status) => return (ReadSizes { entries: 0, missing: 0 }, status),
    };
    let sizes = ReadSizes {
        entries: read.entries.len(),
        missing: read.missing.len(),
    };
    if !entries.holds(&read.entries) || !missing.holds(&read.missing) {
        return (sizes, TOO_SMALL);
    }
    entries.begin_with(&read.entries);
    missing.begin_with(&read.missing);
    (sizes, status)
}
