//! The calls for PDF of the header, which says what each does.

use crate::buffers::{hand_items, hand_read, list, Buffer, ReadSizes};
use crate::calls::guarded;
use crate::making::List;
use crate::options::font_choices;
use crate::status::{status_of, BITMAPS_ALONE, DONE, INVALID_TEXT, NOT_PERMITTED, NO_CMAP, UNKNOWN_OPTION};
use fonts::capi::pdf::{glyphs_of, pdf_font, read_text, Column, Entries, Entry, FontLists, FontNumbers, FontParts, Refusal};
use fonts::capi::Coordinate;
use fonts::pdf::FontError;

/// A font for a PDF, which the caller reads, and gives back by `subsetter_free_pdf_font`.
#[derive(Clone, Copy)]
#[repr(C)]
pub struct PdfMade {
    program: List<u8>,
    cids: List<u16>,
    codes: List<u16>,
    is_said: List<bool>,
    widths: List<u32>,
    columns: List<Column>,
    font_name: List<u8>,
    to_unicode: List<u8>,
    encoding: List<u8>,
    encoding_name: List<u8>,
    cid_set: List<u8>,
    numbers: FontNumbers,
}

impl PdfMade {
    /// How many bytes the font program has.
    #[cfg(test)]
    pub fn size(&self) -> usize {
        self.program.count()
    }

    /// Nothing.
    pub fn nothing() -> Self {
        Self {
            program: List::NONE,
            cids: List::NONE,
            codes: List::NONE,
            is_said: List::NONE,
            widths: List::NONE,
            columns: List::NONE,
            font_name: List::NONE,
            to_unicode: List::NONE,
            encoding: List::NONE,
            encoding_name: List::NONE,
            cid_set: List::NONE,
            numbers: FontNumbers::default(),
        }
    }

    /// A font that stays until it is given back.
    pub fn of(lists: FontLists, numbers: FontNumbers) -> Self {
        Self {
            program: List::of(lists.program),
            cids: List::of(lists.cids),
            codes: List::of(lists.codes),
            is_said: List::of(lists.is_said),
            widths: List::of(lists.widths),
            columns: List::of(lists.columns),
            font_name: List::of(lists.font_name),
            to_unicode: List::of(lists.to_unicode),
            encoding: List::of(lists.encoding),
            encoding_name: List::of(lists.encoding_name),
            cid_set: List::of(lists.cid_set),
            numbers,
        }
    }

    /// The lists, with those of a CIDToGIDMap.
    ///
    /// # Safety
    ///
    /// They were handed over by a call that makes a font, and aren't given back as long as they are used.
    pub unsafe fn parts<'a>(&self, map: List<u8>) -> FontParts<'a> {
        unsafe {
            FontParts {
                cid_to_gid_map: map.items(),
                program: self.program.items(),
                cids: self.cids.items(),
                codes: self.codes.items(),
                is_said: self.is_said.items(),
                widths: self.widths.items(),
                columns: self.columns.items(),
                font_name: self.font_name.items(),
                to_unicode: self.to_unicode.items(),
                encoding: self.encoding.items(),
                encoding_name: self.encoding_name.items(),
                cid_set: self.cid_set.items(),
                numbers: self.numbers,
            }
        }
    }

    /// Gives all lists back.
    ///
    /// # Safety
    ///
    /// They were handed over by a call that makes a font, and aren't used again.
    pub unsafe fn give_back(&self) {
        unsafe {
            self.program.give_back();
            self.cids.give_back();
            self.codes.give_back();
            self.is_said.give_back();
            self.widths.give_back();
            self.columns.give_back();
            self.font_name.give_back();
            self.to_unicode.give_back();
            self.encoding.give_back();
            self.encoding_name.give_back();
            self.cid_set.give_back();
        }
    }
}

/// A part of a PDF file, or a whole one, which the caller reads, and gives back by `subsetter_free_pdf_objects`.
#[derive(Clone, Copy)]
#[repr(C)]
pub struct ObjectsMade {
    bytes: List<u8>,
    offsets: List<usize>,
}

impl ObjectsMade {
    /// How many bytes there are.
    #[cfg(test)]
    pub fn size(&self) -> usize {
        self.bytes.count()
    }

    /// Nothing.
    pub const NOTHING: Self = Self {
        bytes: List::NONE,
        offsets: List::NONE,
    };

    /// The objects of a font, with numbers from one on.
    pub fn objects(font: FontParts<'_>, first: u32) -> Result<Self, u32> {
        let (bytes, offsets) = font.objects(first).map_err(status_of)?;
        Ok(Self::of(bytes, offsets))
    }

    /// Bytes without offsets.
    pub fn bytes(bytes: Vec<u8>) -> Self {
        Self::of(bytes, Vec::new())
    }

    fn of(bytes: Vec<u8>, starts: Vec<usize>) -> Self {
        Self {
            bytes: List::of(bytes),
            offsets: List::of(starts),
        }
    }
}

/// The number of a refusal.
pub fn status_of_refusal(refusal: Refusal) -> u32 {
    match refusal {
        Refusal::Text | Refusal::Font(FontError::TextTooLong) => INVALID_TEXT,
        Refusal::Font(FontError::NotPermitted(_)) => NOT_PERMITTED,
        Refusal::Font(FontError::Subset(error)) => status_of(error),
        Refusal::Font(FontError::BitmapsAlone) => BITMAPS_ALONE,
        // (that is `NoCmap`; Rust wants an arm for what may come)
        Refusal::Font(_) => NO_CMAP,
    }
}

/// Hands over what was made: the status. For a refusal it is `nothing`.
///
/// # Safety
///
/// What is made can be written.
pub unsafe fn hand<T>(answer: Result<T, u32>, nothing: T, made: *mut T) -> u32 {
    let (value, status) = match answer {
        Ok(value) => (value, DONE),
        Err(status) => (nothing, status),
    };
    unsafe { made.write(value) };
    status
}

/// See `subsetter.h`.
///
/// # Safety
///
/// What the header requires of a caller.
#[no_mangle]
pub unsafe extern "C" fn subsetter_glyphs_of(
    font: *const u8,
    font_size: usize,
    index: u32,
    text: *const u32,
    text_count: usize,
    glyphs: *mut u16,
    glyph_count: usize,
    length: *mut usize,
) -> u32 {
    let (font, text) = unsafe { (list(font, font_size), list(text, text_count)) };
    let answer = guarded(|| glyphs_of(font, index, text).map_err(status_of_refusal));
    let out = unsafe { Buffer::new(glyphs, glyph_count) };
    let answer = answer.as_ref().map(Vec::as_slice).map_err(|status| *status);
    let (count, status) = hand_items(answer, out);
    unsafe { length.write(count) };
    status
}

/// See `subsetter.h`.
///
/// # Safety
///
/// What the header requires of a caller.
#[no_mangle]
pub unsafe extern "C" fn subsetter_read_text(
    font: *const u8,
    font_size: usize,
    index: u32,
    text: *const u32,
    text_count: usize,
    entries: *mut Entry,
    entry_count: usize,
    missing: *mut usize,
    missing_count: usize,
    sizes: *mut ReadSizes,
) -> u32 {
    let (font, text) = unsafe { (list(font, font_size), list(text, text_count)) };
    let answer = guarded(|| read_text(font, index, text).map_err(status_of_refusal));
    let (entries, missing) = unsafe { (Buffer::new(entries, entry_count), Buffer::new(missing, missing_count)) };
    let (told, status) = hand_read(answer, entries, missing);
    unsafe { sizes.write(told) };
    status
}

/// See `subsetter.h`.
///
/// # Safety
///
/// What the header requires of a caller.
#[no_mangle]
pub unsafe extern "C" fn subsetter_make_pdf_font_by_words(
    font: *const u8,
    font_size: usize,
    index: u32,
    coordinates: *const Coordinate,
    coordinate_count: usize,
    glyphs: *const u16,
    glyph_count: usize,
    text: *const u32,
    text_count: usize,
    ends: *const usize,
    end_count: usize,
    options: *const u32,
    option_count: usize,
    made: *mut PdfMade,
) -> u32 {
    let font = unsafe { list(font, font_size) };
    let at = unsafe { list(coordinates, coordinate_count) };
    let entries = unsafe { entries_of(glyphs, glyph_count, text, text_count, ends, end_count) };
    let words = unsafe { list(options, option_count) };
    let answer = guarded(|| {
        let choices = font_choices(words).ok_or(UNKNOWN_OPTION)?;
        let parts = pdf_font(font, index, at, entries, &choices);
        let (lists, numbers) = parts.map_err(status_of_refusal)?;
        Ok(PdfMade::of(lists, numbers))
    });
    unsafe { hand(answer, PdfMade::nothing(), made) }
}

/// The entries of three lists.
///
/// # Safety
///
/// As of [`list`], for each.
pub unsafe fn entries_of<'a>(
    glyphs: *const u16,
    glyph_count: usize,
    text: *const u32,
    text_count: usize,
    ends: *const usize,
    end_count: usize,
) -> Entries<'a> {
    unsafe {
        Entries {
            glyphs: list(glyphs, glyph_count),
            text: list(text, text_count),
            ends: list(ends, end_count),
        }
    }
}

/// See `subsetter.h`.
///
/// # Safety
///
/// What the header requires of a caller.
#[no_mangle]
pub unsafe extern "C" fn subsetter_free_pdf_font(made: *mut PdfMade) {
    if made.is_null() {
        return;
    }
    unsafe {
        let font = made.replace(PdfMade::nothing());
        font.give_back();
    }
}

/// See `subsetter.h`.
///
/// # Safety
///
/// What the header requires of a caller.
#[no_mangle]
pub unsafe extern "C" fn subsetter_make_pdf_objects(
    font: *const PdfMade,
    first: u32,
    made: *mut ObjectsMade,
) -> u32 {
    let parts = unsafe { (*font).parts(List::NONE) };
    let answer = guarded(|| ObjectsMade::objects(parts, first));
    unsafe { hand(answer, ObjectsMade::NOTHING, made) }
}

/// See `subsetter.h`.
///
/// # Safety
///
/// What the header requires of a caller.
#[no_mangle]
pub unsafe extern "C" fn subsetter_make_pdf_sheet(
    font: *const PdfMade,
    glyphs: *const u16,
    glyph_count: usize,
    text: *const u32,
    text_count: usize,
    ends: *const usize,
    end_count: usize,
    layout: u32,
    made: *mut ObjectsMade,
) -> u32 {
    let parts = unsafe { (*font).parts(List::NONE) };
    let entries = unsafe { entries_of(glyphs, glyph_count, text, text_count, ends, end_count) };
    let answer = guarded(|| {
        if layout > 1 {
            return Err(UNKNOWN_OPTION);
        }
        let file = parts.sheet(entries, layout == 1);
        Ok(ObjectsMade::bytes(file.map_err(status_of_refusal)?))
    });
    unsafe { hand(answer, ObjectsMade::NOTHING, made) }
}

/// See `subsetter.h`.
///
/// # Safety
///
/// What the header requires of a caller.
#[no_mangle]
pub unsafe extern "C" fn subsetter_free_pdf_objects(made: *mut ObjectsMade) {
    if made.is_null() {
        return;
    }
    unsafe {
        let objects = made.replace(ObjectsMade::NOTHING);
        objects.bytes.give_back();
        objects.offsets.give_back();
    }
}
