//! The calls of the header, which says what each does.
//!
//! Each has the same steps: the lists that it is given, the answer of the crate, and then the caller's memory. Only the middle
//! one has code that could panic, so it runs in [`guarded`]: a panic unwinds to there and becomes the status
//! [`PANICKED`](crate::status::PANICKED), with which nothing is written but sizes of 0. What runs outside of it compares sizes
//! and copies.

use crate::buffers::{hand_bytes, hand_embedded, list, Buffer, Buffers, Sizes};
use crate::making::{alone, make, Made};
use crate::options::choices;
use crate::status::{status_of, status_text, NO_DEPTH, PANICKED, UNKNOWN_OPTION, VERSION};
use fonts::capi::{embed, embed_at, explain, subset, subset_at, Choices, Coordinate};
use fonts::Embedded;
use std::panic::{catch_unwind, AssertUnwindSafe};

/// What each call is given.
struct Given<'a> {
    font: &'a [u8],
    index: u32,
    glyphs: &'a [u16],
    /// Without any it isn't a call at coordinates.
    coordinates: Option<&'a [Coordinate]>,
}

impl<'a> Given<'a> {
    /// A font and glyphs.
    ///
    /// # Safety
    ///
    /// As of [`list`], for both lists.
    unsafe fn new(
        font: *const u8,
        font_size: usize,
        index: u32,
        glyphs: *const u16,
        glyph_count: usize,
    ) -> Self {
        Self {
            font: unsafe { list(font, font_size) },
            index,
            glyphs: unsafe { list(glyphs, glyph_count) },
            coordinates: None,
        }
    }

    /// The same at coordinates.
    ///
    /// # Safety
    ///
    /// As of [`list`].
    unsafe fn at(self, coordinates: *const Coordinate, count: usize) -> Self {
        let coordinates = Some(unsafe { list(coordinates, count) });
        Self {
            coordinates,
            ..self
        }
    }

    fn subset(&self, choices: &Choices) -> Result<Vec<u8>, u32> {
        let made = match self.coordinates {
            None => subset(self.font, self.index, self.glyphs, choices),
            Some(at) => subset_at(self.font, self.index, at, self.glyphs, choices),
        };
        made.map_err(status_of)
    }

    fn embedded(&self, choices: &Choices) -> Result<Embedded, u32> {
        let made = match self.coordinates {
            None => embed(self.font, self.index, self.glyphs, choices),
            Some(at) => embed_at(self.font, self.index, at, self.glyphs, choices),
        };
        made.map_err(status_of)
    }
}

/// What runs where a panic could be: it never leaves this call.
pub fn guarded<T>(call: impl FnOnce() -> Result<T, u32>) -> Result<T, u32> {
    let call = || {
        #[cfg(test)]
        crate::tests::panic_where_wanted();
        call()
    };
    // (nothing that the call changed is looked at afterwards)
    catch_unwind(AssertUnwindSafe(call)).unwrap_or(Err(PANICKED))
}

/// A subset by the words of its options.
fn subset_by(given: &Given, words: &[u32]) -> Result<Vec<u8>, u32> {
    guarded(|| given.subset(&choices(words).ok_or(UNKNOWN_OPTION)?))
}

/// A font with CIDs and widths by the words of its options.
fn embedded_by(given: &Given, words: &[u32]) -> Result<Embedded, u32> {
    guarded(|| given.embedded(&choices(words).ok_or(UNKNOWN_OPTION)?))
}

/// Hands a subset over: the status.
///
/// # Safety
///
/// As of [`Buffer::new`]; a size can be written.
unsafe fn hand(
    answer: Result<Vec<u8>, u32>,
    out: *mut u8,
    out_size: usize,
    length: *mut usize,
) -> u32 {
    let out = unsafe { Buffer::new(out, out_size) };
    let answer = answer.as_ref().map(Vec::as_slice).map_err(|status| *status);
    let (size, status) = hand_bytes(answer, out);
    unsafe { length.write(size) };
    status
}

/// Hands a font with CIDs and widths over: the status.
///
/// # Safety
///
/// As of [`Buffer::new`], for each; sizes can be written.
#[allow(clippy::too_many_arguments)]
unsafe fn hand_all(
    answer: Result<Embedded, u32>,
    out: *mut u8,
    out_size: usize,
    cids: *mut u16,
    cid_count: usize,
    widths: *mut u32,
    width_count: usize,
    sizes: *mut Sizes,
) -> u32 {
    let out = unsafe {
        Buffers {
            font: Buffer::new(out, out_size),
            cids: Buffer::new(cids, cid_count),
            widths: Buffer::new(widths, width_count),
        }
    };
    let (told, status) = hand_embedded(answer, out);
    unsafe { sizes.write(told) };
    status
}

/// Hands lists of the library over: the status.
///
/// # Safety
///
/// What is made can be written.
unsafe fn hand_made(answer: Result<Embedded, u32>, made: *mut Made) -> u32 {
    let (lists, status) = make(answer);
    unsafe { made.write(lists) };
    status
}

/// See `subsetter.h`.
///
/// # Safety
///
/// What the header requires of a caller.
#[no_mangle]
pub unsafe extern "C" fn subsetter_subset(
    font: *const u8,
    font_size: usize,
    index: u32,
    glyphs: *const u16,
    glyph_count: usize,
    out: *mut u8,
    out_size: usize,
    length: *mut usize,
) -> u32 {
    let given = unsafe { Given::new(font, font_size, index, glyphs, glyph_count) };
    unsafe { hand(subset_by(&given, &[]), out, out_size, length) }
}

/// See `subsetter.h`.
///
/// # Safety
///
/// What the header requires of a caller.
#[no_mangle]
pub unsafe extern "C" fn subsetter_subset_with_limits(
    font: *const u8,
    font_size: usize,
    index: u32,
    glyphs: *const u16,
    glyph_count: usize,
    tokens: u32,
    depth: u8,
    out: *mut u8,
    out_size: usize,
    length: *mut usize,
) -> u32 {
    let given = unsafe { Given::new(font, font_size, index, glyphs, glyph_count) };
    let answer = guarded(|| given.subset(&Choices::new(tokens, depth).ok_or(NO_DEPTH)?));
    unsafe { hand(answer, out, out_size, length) }
}

/// See `subsetter.h`.
///
/// # Safety
///
/// What the header requires of a caller.
#[no_mangle]
pub unsafe extern "C" fn subsetter_subset_by_words(
    font: *const u8,
    font_size: usize,
    index: u32,
    glyphs: *const u16,
    glyph_count: usize,
    options: *const u32,
    option_count: usize,
    out: *mut u8,
    out_size: usize,
    length: *mut usize,
) -> u32 {
    let given = unsafe { Given::new(font, font_size, index, glyphs, glyph_count) };
    let words = unsafe { list(options, option_count) };
    unsafe { hand(subset_by(&given, words), out, out_size, length) }
}

/// See `subsetter.h`.
///
/// # Safety
///
/// What the header requires of a caller.
#[no_mangle]
pub unsafe extern "C" fn subsetter_subset_at_by_words(
    font: *const u8,
    font_size: usize,
    index: u32,
    coordinates: *const Coordinate,
    coordinate_count: usize,
    glyphs: *const u16,
    glyph_count: usize,
    options: *const u32,
    option_count: usize,
    out: *mut u8,
    out_size: usize,
    length: *mut usize,
) -> u32 {
    let given = unsafe { Given::new(font, font_size, index, glyphs, glyph_count) };
    let given = unsafe { given.at(coordinates, coordinate_count) };
    let words = unsafe { list(options, option_count) };
    unsafe { hand(subset_by(&given, words), out, out_size, length) }
}

/// See `subsetter.h`.
///
/// # Safety
///
/// What the header requires of a caller.
#[no_mangle]
pub unsafe extern "C" fn subsetter_embed(
    font: *const u8,
    font_size: usize,
    index: u32,
    glyphs: *const u16,
    glyph_count: usize,
    out: *mut u8,
    out_size: usize,
    cids: *mut u16,
    cid_count: usize,
    widths: *mut u32,
    width_count: usize,
    sizes: *mut Sizes,
) -> u32 {
    let given = unsafe { Given::new(font, font_size, index, glyphs, glyph_count) };
    let answer = embedded_by(&given, &[]);
    unsafe {
        hand_all(
            answer,
            out,
            out_size,
            cids,
            cid_count,
            widths,
            width_count,
            sizes,
        )
    }
}

/// See `subsetter.h`.
///
/// # Safety
///
/// What the header requires of a caller.
#[no_mangle]
pub unsafe extern "C" fn subsetter_embed_by_words(
    font: *const u8,
    font_size: usize,
    index: u32,
    glyphs: *const u16,
    glyph_count: usize,
    options: *const u32,
    option_count: usize,
    out: *mut u8,
    out_size: usize,
    cids: *mut u16,
    cid_count: usize,
    widths: *mut u32,
    width_count: usize,
    sizes: *mut Sizes,
) -> u32 {
    let given = unsafe { Given::new(font, font_size, index, glyphs, glyph_count) };
    let answer = embedded_by(&given, unsafe { list(options, option_count) });
    unsafe {
        hand_all(
            answer,
            out,
            out_size,
            cids,
            cid_count,
            widths,
            width_count,
            sizes,
        )
    }
}

/// See `subsetter.h`.
///
/// # Safety
///
/// What the header requires of a caller.
#[no_mangle]
pub unsafe extern "C" fn subsetter_embed_at_by_words(
    font: *const u8,
    font_size: usize,
    index: u32,
    coordinates: *const Coordinate,
    coordinate_count: usize,
    glyphs: *const u16,
    glyph_count: usize,
    options: *const u32,
    option_count: usize,
    out: *mut u8,
    out_size: usize,
    cids: *mut u16,
    cid_count: usize,
    widths: *mut u32,
    width_count: usize,
    sizes: *mut Sizes,
) -> u32 {
    let given = unsafe { Given::new(font, font_size, index, glyphs, glyph_count) };
    let given = unsafe { given.at(coordinates, coordinate_count) };
    let answer = embedded_by(&given, unsafe { list(options, option_count) });
    unsafe {
        hand_all(
            answer,
            out,
            out_size,
            cids,
            cid_count,
            widths,
            width_count,
            sizes,
        )
    }
}

/// See `subsetter.h`.
///
/// # Safety
///
/// What the header requires of a caller.
#[no_mangle]
pub unsafe extern "C" fn subsetter_make_subset_by_words(
    font: *const u8,
    font_size: usize,
    index: u32,
    glyphs: *const u16,
    glyph_count: usize,
    options: *const u32,
    option_count: usize,
    made: *mut Made,
) -> u32 {
    let given = unsafe { Given::new(font, font_size, index, glyphs, glyph_count) };
    let answer = subset_by(&given, unsafe { list(options, option_count) });
    unsafe { hand_made(answer.map(alone), made) }
}

/// See `subsetter.h`.
///
/// # Safety
///
/// What the header requires of a caller.
#[no_mangle]
pub unsafe extern "C" fn subsetter_make_subset_at_by_words(
    font: *const u8,
    font_size: usize,
    index: u32,
    coordinates: *const Coordinate,
    coordinate_count: usize,
    glyphs: *const u16,
    glyph_count: usize,
    options: *const u32,
    option_count: usize,
    made: *mut Made,
) -> u32 {
    let given = unsafe { Given::new(font, font_size, index, glyphs, glyph_count) };
    let given = unsafe { given.at(coordinates, coordinate_count) };
    let answer = subset_by(&given, unsafe { list(options, option_count) });
    unsafe { hand_made(answer.map(alone), made) }
}

/// See `subsetter.h`.
///
/// # Safety
///
/// What the header requires of a caller.
#[no_mangle]
pub unsafe extern "C" fn subsetter_make_embedded_by_words(
    font: *const u8,
    font_size: usize,
    index: u32,
    glyphs: *const u16,
    glyph_count: usize,
    options: *const u32,
    option_count: usize,
    made: *mut Made,
) -> u32 {
    let given = unsafe { Given::new(font, font_size, index, glyphs, glyph_count) };
    let answer = embedded_by(&given, unsafe { list(options, option_count) });
    unsafe { hand_made(answer, made) }
}

/// See `subsetter.h`.
///
/// # Safety
///
/// What the header requires of a caller.
#[no_mangle]
pub unsafe extern "C" fn subsetter_make_embedded_at_by_words(
    font: *const u8,
    font_size: usize,
    index: u32,
    coordinates: *const Coordinate,
    coordinate_count: usize,
    glyphs: *const u16,
    glyph_count: usize,
    options: *const u32,
    option_count: usize,
    made: *mut Made,
) -> u32 {
    let given = unsafe { Given::new(font, font_size, index, glyphs, glyph_count) };
    let given = unsafe { given.at(coordinates, coordinate_count) };
    let answer = embedded_by(&given, unsafe { list(options, option_count) });
    unsafe { hand_made(answer, made) }
}

/// See `subsetter.h`.
///
/// # Safety
///
/// What the header requires of a caller.
#[no_mangle]
pub unsafe extern "C" fn subsetter_free(made: *mut Made) {
    if made.is_null() {
        return;
    }
    unsafe {
        let lists = made.replace(Made::NOTHING);
        lists.give_back();
    }
}

/// See `subsetter.h`.
///
/// # Safety
///
/// What the header requires of a caller.
#[no_mangle]
pub unsafe extern "C" fn subsetter_error_text(
    status: u32,
    out: *mut u8,
    out_size: usize,
    length: *mut usize,
) -> u32 {
    let out = unsafe { Buffer::new(out, out_size) };
    let (size, done) = hand_bytes(Ok(status_text(status)), out);
    unsafe { length.write(size) };
    done
}

/// See `subsetter.h`.
///
/// # Safety
///
/// What the header requires of a caller.
#[no_mangle]
pub unsafe extern "C" fn subsetter_explain_by_words(
    call: u32,
    status: u32,
    font: *const u8,
    font_size: usize,
    index: u32,
    coordinates: *const Coordinate,
    coordinate_count: usize,
    glyphs: *const u16,
    glyph_count: usize,
    options: *const u32,
    option_count: usize,
    out: *mut u8,
    out_size: usize,
    length: *mut usize,
) -> u32 {
    let given = unsafe { Given::new(font, font_size, index, glyphs, glyph_count) };
    let at = unsafe { list(coordinates, coordinate_count) };
    let words = unsafe { list(options, option_count) };
    let text = guarded(|| {
        let choices = choices(words).ok_or(UNKNOWN_OPTION)?;
        let text = explain(call, status, given.font, index, at, given.glyphs, &choices);
        text.ok_or(UNKNOWN_OPTION)?.map_err(status_of)
    });
    unsafe { hand(text.map(String::into_bytes), out, out_size, length) }
}

/// See `subsetter.h`.
#[no_mangle]
pub extern "C" fn subsetter_version() -> u32 {
    VERSION
}
