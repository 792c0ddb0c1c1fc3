//! Handing an answer over in memory of the library.

use crate::buffers::list;
use crate::heap::give_back;
use crate::status::DONE;
use fonts::Embedded;
use std::ptr;

/// Lists that the caller reads, and gives back by `subsetter_free`. An empty one is null and takes no memory.
#[repr(C)]
pub struct Made {
    /// The bytes of the font.
    pub font: *const u8,
    /// How many they are.
    pub font_size: usize,
    /// The CID of each given glyph.
    pub cids: *const u16,
    /// How many they are.
    pub cid_count: usize,
    /// The width of each CID.
    pub widths: *const u32,
    /// How many they are.
    pub width_count: usize,
}

impl Made {
    /// Nothing.
    pub const NOTHING: Self = Self {
        font: ptr::null(),
        font_size: 0,
        cids: ptr::null(),
        cid_count: 0,
        widths: ptr::null(),
        width_count: 0,
    };

    /// Gives all lists back.
    ///
    /// # Safety
    ///
    /// The lists were handed over by this module, and aren't used again.
    pub unsafe fn give_back(&self) {
        unsafe {
            give_back(self.font, self.font_size);
            give_back(self.cids, self.cid_count);
            give_back(self.widths, self.width_count);
        }
    }
}

/// A list as C has it, which stays until it is given back. One of no items is null and takes no memory.
#[derive(Clone, Copy)]
#[repr(C)]
pub struct List<T> {
    at: *const T,
    count: usize,
}

impl<T> List<T> {
    /// No items.
    pub const NONE: Self = Self {
        at: ptr::null(),
        count: 0,
    };

    /// A list that stays.
    pub fn of(items: Vec<T>) -> Self {
        let (at, count) = kept(items);
        Self { at, count }
    }

    /// A list that somebody else keeps.
    pub fn borrowed(items: &[T]) -> Self {
        Self {
            at: items.as_ptr(),
            count: items.len(),
        }
    }

    /// How many items it has.
    #[cfg(test)]
    pub fn count(&self) -> usize {
        self.count
    }

    /// Its items.
    ///
    /// # Safety
    ///
    /// As of [`list`].
    pub unsafe fn items<'a>(&self) -> &'a [T] {
        unsafe { list(self.at, self.count) }
    }

    /// Gives it back.
    ///
    /// # Safety
    ///
    /// It was handed over by this module, and isn't used again.
    pub unsafe fn give_back(&self) {
        unsafe { give_back(self.at, self.count) }
    }
}

/// A list that stays until it is given back, as a pointer and a count.
pub fn kept<T>(items: Vec<T>) -> (*const T, usize) {
    // (room may be there without items)
    if items.is_empty() {
        return (ptr::null(), 0);
    }
    let items = items.leak();
    (items.as_ptr(), items.len())
}

/// A font with its CIDs and widths, and the status.
pub fn make(answer: Result<Embedded, u32>) -> (Made, u32) {
    let embedded = match answer {
        Ok(embedded) => embedded,
        Err(status) => return (Made::NOTHING, status),
    };
    let (font, font_size) = kept(embedded.font);
    let (cids, cid_count) = kept(embedded.cids);
    let (widths, width_count) = kept(embedded.widths);
    let made = Made {
        font,
        font_size,
        cids,
        cid_count,
        widths,
        width_count,
    };
    (made, DONE)
}

/// A subset alone.
pub fn alone(font: Vec<u8>) -> Embedded {
    Embedded {
        font,
        cids: Vec::new(),
        widths: Vec::new(),
    }
}
