//! The calls of the header's struct `subsetter_font`, and those that need no font.

use crate::buffers::{hand_items, list, Buffer};
use crate::calls::guarded;
use crate::fonts_for_pdf::{entries_of, hand, status_of_refusal, ObjectsMade, PdfMade};
use crate::making::List;
use crate::options::{choices, font_choices};
use crate::status::{status_of, DONE, INVALID_NUMBERS, TOO_SMALL, UNKNOWN_OPTION};
use fonts::capi::pdf::{
    advances, codes_of, kinds_of, pdf_font, Entries, FontLists, FontNumbers, FontParts, TextEntries,
};
use fonts::capi::Coordinate;
use fonts::pdf::{Part, PartsError};
use fonts::Error;
use std::mem::{size_of, take};

/// All that a PDF has of a font, and what it was made of, which the caller reads, and gives back by `subsetter_free_font`.
#[derive(Clone, Copy)]
#[repr(C)]
pub struct FontMade {
    /// The size of the struct, by which the caller says which it has.
    pub size: u32,
    units_per_em: u32,
    pdf: PdfMade,
    exact_widths: List<u16>,
    unknown_axes: List<u32>,
    glyphs: List<u16>,
    text: List<u32>,
    ends: List<usize>,
    cid_to_gid_map: List<u8>,
}

/// The one size that is known.
const SIZE: u32 = size_of::<FontMade>() as u32;

/// A list with room for `count`.
fn with_room<T>(count: usize) -> Result<Vec<T>, u32> {
    let mut list = Vec::new();
    let reserved = list.try_reserve_exact(count);
    reserved.map_err(|_| status_of(Error::OutOfMemory))?;
    Ok(list)
}

/// A copy of a list.
pub fn copied<T: Copy>(items: &[T]) -> Result<Vec<T>, u32> {
    let mut list = with_room(items.len())?;
    list.extend_from_slice(items);
    Ok(list)
}

impl FontMade {
    /// Nothing.
    pub fn nothing() -> Self {
        Self {
            size: SIZE,
            units_per_em: 0,
            pdf: PdfMade::nothing(),
            exact_widths: List::NONE,
            unknown_axes: List::NONE,
            glyphs: List::NONE,
            text: List::NONE,
            ends: List::NONE,
            cid_to_gid_map: List::NONE,
        }
    }

    /// A font of these entries that stays until it is given back.
    pub fn of(
        mut lists: FontLists,
        numbers: FontNumbers,
        entries: Entries<'_>,
    ) -> Result<Self, u32> {
        let (glyphs, text) = (copied(entries.glyphs)?, copied(entries.text)?);
        let ends = copied(entries.ends)?;
        Ok(Self {
            size: SIZE,
            units_per_em: u32::from(lists.units_per_em),
            exact_widths: List::of(take(&mut lists.exact_widths)),
            unknown_axes: List::of(take(&mut lists.unknown_axes)),
            glyphs: List::of(glyphs),
            text: List::of(text),
            ends: List::of(ends),
            cid_to_gid_map: List::of(take(&mut lists.cid_to_gid_map)),
            pdf: PdfMade::of(lists, numbers),
        })
    }

    /// The lists that its objects say.
    ///
    /// # Safety
    ///
    /// As of [`PdfMade::parts`].
    unsafe fn parts<'a>(&self) -> FontParts<'a> {
        unsafe { self.pdf.parts(self.cid_to_gid_map) }
    }

    /// A font of these entries, by the words of its options.
    fn by_words(
        font: &[u8],
        index: u32,
        at: &[Coordinate],
        entries: Entries<'_>,
        words: &[u32],
    ) -> Result<Self, u32> {
        let choices = font_choices(words).ok_or(UNKNOWN_OPTION)?;
        let parts = pdf_font(font, index, at, entries, &choices);
        let (lists, numbers) = parts.map_err(status_of_refusal)?;
        Self::of(lists, numbers, entries)
    }
}

/// Hands a font over: the status. Where the caller's struct has another size nothing is written.
///
/// # Safety
///
/// `size` of `made` can be read, and that many bytes written.
pub unsafe fn hand_font(call: impl FnOnce() -> Result<FontMade, u32>, made: *mut FontMade) -> u32 {
    if unsafe { (*made).size } != SIZE {
        return UNKNOWN_OPTION;
    }
    unsafe { hand(guarded(call), FontMade::nothing(), made) }
}

/// See `subsetter.h`.
///
/// # Safety
///
/// What the header requires of a caller.
#[no_mangle]
pub unsafe extern "C" fn subsetter_make_font_by_words(
    font: *const u8,
    font_size: usize,
    index: u32,
    coordinates: *const Coordinate,
    coordinate_count: usize,
    glyphs: *const u16,
    glyph_count: usize,
    text: *const u32,
    text_count: usize,
    ends: *const usize,
    end_count: usize,
    options: *const u32,
    option_count: usize,
    made: *mut FontMade,
) -> u32 {
    let font = unsafe { list(font, font_size) };
    let at = unsafe { list(coordinates, coordinate_count) };
    let entries = unsafe { entries_of(glyphs, glyph_count, text, text_count, ends, end_count) };
    let words = unsafe { list(options, option_count) };
    let call = || FontMade::by_words(font, index, at, entries, words);
    unsafe { hand_font(call, made) }
}

/// See `subsetter.h`.
///
/// # Safety
///
/// What the header requires of a caller.
#[no_mangle]
pub unsafe extern "C" fn subsetter_make_pdf_font_of_utf8_by_words(
    font: *const u8,
    font_size: usize,
    index: u32,
    coordinates: *const Coordinate,
    coordinate_count: usize,
    text: *const u8,
    text_size: usize,
    options: *const u32,
    option_count: usize,
    made: *mut FontMade,
) -> u32 {
    let font = unsafe { list(font, font_size) };
    let at = unsafe { list(coordinates, coordinate_count) };
    let text = unsafe { list(text, text_size) };
    let words = unsafe { list(options, option_count) };
    let call = || {
        font_choices(words).ok_or(UNKNOWN_OPTION)?;
        let found = TextEntries::of_utf8(font, index, text).map_err(status_of_refusal)?;
        FontMade::by_words(font, index, at, found.entries(), words)
    };
    unsafe { hand_font(call, made) }
}

/// See `subsetter.h`.
///
/// # Safety
///
/// What the header requires of a caller.
#[no_mangle]
pub unsafe extern "C" fn subsetter_free_font(made: *mut FontMade) {
    if made.is_null() {
        return;
    }
    unsafe {
        let size = (*made).size;
        let font = made.replace(FontMade {
            size,
            ..FontMade::nothing()
        });
        font.pdf.give_back();
        font.exact_widths.give_back();
        font.unknown_axes.give_back();
        font.glyphs.give_back();
        font.text.give_back();
        font.ends.give_back();
        font.cid_to_gid_map.give_back();
    }
}

// ---- the parts

/// Where a string is in the entries of a part.
#[derive(Clone, Copy)]
#[repr(C)]
pub struct StringRange {
    start: usize,
    end: usize,
}

/// A part of a font.
#[derive(Clone, Copy)]
#[repr(C)]
pub struct PartMade {
    role: u32,
    number: u32,
    entries: List<u8>,
    strings: List<StringRange>,
    is_stream: u32,
    stream: List<u8>,
}

/// All parts of a font.
#[derive(Clone, Copy)]
#[repr(C)]
pub struct PartsMade {
    parts: List<PartMade>,
}

impl PartsMade {
    /// Nothing.
    pub const NOTHING: Self = Self { parts: List::NONE };

    /// Parts that stay until they are given back, but for the streams, which are those of the font.
    fn of(parts: Vec<Part<'_>>) -> Result<Self, u32> {
        let (mut made, mut ranges) = (with_room(parts.len())?, with_room(parts.len())?);
        for part in &parts {
            let mut strings = with_room(part.strings.len())?;
            strings.extend(part.strings.iter().map(|it| StringRange {
                start: it.start,
                end: it.end,
            }));
            ranges.push(strings);
        }
        for (part, strings) in parts.into_iter().zip(ranges) {
            made.push(PartMade {
                role: part.role as u32,
                number: part.number,
                is_stream: u32::from(part.stream.is_some()),
                stream: part.stream.as_deref().map_or(List::NONE, List::borrowed),
                entries: List::of(part.entries),
                strings: List::of(strings),
            });
        }
        Ok(Self {
            parts: List::of(made),
        })
    }
}

/// See `subsetter.h`.
///
/// # Safety
///
/// What the header requires of a caller.
#[no_mangle]
pub unsafe extern "C" fn subsetter_pdf_part_count(font: *const FontMade) -> u32 {
    unsafe { (*font).parts() }.part_count()
}

/// See `subsetter.h`.
///
/// # Safety
///
/// What the header requires of a caller.
#[no_mangle]
pub unsafe extern "C" fn subsetter_make_pdf_parts(
    font: *const FontMade,
    numbers: *const u32,
    number_count: usize,
    made: *mut PartsMade,
) -> u32 {
    let (size, parts) = unsafe { ((*font).size, (*font).parts()) };
    let numbers = unsafe { list(numbers, number_count) };
    let answer = guarded(|| {
        if size != SIZE {
            return Err(UNKNOWN_OPTION);
        }
        let found = parts.parts(numbers).map_err(|error| match error {
            PartsError::InvalidNumbers => INVALID_NUMBERS,
            PartsError::Subset(error) => status_of(error),
        });
        PartsMade::of(found?)
    });
    unsafe { hand(answer, PartsMade::NOTHING, made) }
}

/// See `subsetter.h`.
///
/// # Safety
///
/// What the header requires of a caller.
#[no_mangle]
pub unsafe extern "C" fn subsetter_make_objects(
    font: *const FontMade,
    first: u32,
    made: *mut ObjectsMade,
) -> u32 {
    let (size, parts) = unsafe { ((*font).size, (*font).parts()) };
    let answer = guarded(|| {
        if size != SIZE {
            return Err(UNKNOWN_OPTION);
        }
        ObjectsMade::objects(parts, first)
    });
    unsafe { hand(answer, ObjectsMade::NOTHING, made) }
}

/// A line of a sheet.
#[derive(Clone, Copy)]
#[repr(C)]
pub struct Line {
    operators: List<u8>,
    advance: u32,
}

/// See `subsetter.h`.
///
/// # Safety
///
/// What the header requires of a caller.
#[no_mangle]
pub unsafe extern "C" fn subsetter_make_text_sheet(
    font: *const FontMade,
    lines: *const Line,
    line_count: usize,
    made: *mut ObjectsMade,
) -> u32 {
    let (size, parts) = unsafe { ((*font).size, (*font).parts()) };
    let lines = unsafe { list(lines, line_count) };
    let runs = lines
        .iter()
        .map(|it| unsafe { (it.operators.items(), it.advance) });
    let answer = guarded(|| {
        if size != SIZE {
            return Err(UNKNOWN_OPTION);
        }
        let file = parts.text_sheet(runs).map_err(status_of)?;
        Ok(ObjectsMade::bytes(file))
    });
    unsafe { hand(answer, ObjectsMade::NOTHING, made) }
}

/// See `subsetter.h`.
///
/// # Safety
///
/// What the header requires of a caller.
#[no_mangle]
pub unsafe extern "C" fn subsetter_free_pdf_parts(made: *mut PartsMade) {
    if made.is_null() {
        return;
    }
    unsafe {
        let all = made.replace(PartsMade::NOTHING).parts;
        for part in all.items() {
            part.entries.give_back();
            part.strings.give_back();
        }
        all.give_back();
    }
}

// ---- without a font for a PDF

/// See `subsetter.h`.
///
/// # Safety
///
/// What the header requires of a caller.
#[no_mangle]
pub unsafe extern "C" fn subsetter_codes_of(
    glyphs: *const u16,
    glyph_count: usize,
    text: *const u32,
    text_count: usize,
    ends: *const usize,
    end_count: usize,
    kind: u32,
    codes: *mut u16,
    code_count: usize,
    length: *mut usize,
) -> u32 {
    let entries = unsafe { entries_of(glyphs, glyph_count, text, text_count, ends, end_count) };
    let found = || {
        let codes = codes_of(entries, kind).ok_or(UNKNOWN_OPTION)?;
        codes.map_err(status_of_refusal)
    };
    let answer = guarded(found);
    let answer = answer.as_ref().map(Vec::as_slice).map_err(|status| *status);
    let (count, status) = hand_items(answer, unsafe { Buffer::new(codes, code_count) });
    unsafe { length.write(count) };
    status
}

/// See `subsetter.h`.
///
/// # Safety
///
/// What the header requires of a caller.
#[no_mangle]
pub unsafe extern "C" fn subsetter_advances_by_words(
    font: *const u8,
    font_size: usize,
    index: u32,
    coordinates: *const Coordinate,
    coordinate_count: usize,
    glyphs: *const u16,
    glyph_count: usize,
    options: *const u32,
    option_count: usize,
    widths: *mut u16,
    width_count: usize,
    heights: *mut u16,
    height_count: usize,
    units_per_em: *mut u32,
) -> u32 {
    let font = unsafe { list(font, font_size) };
    let at = unsafe { list(coordinates, coordinate_count) };
    let glyphs = unsafe { list(glyphs, glyph_count) };
    let words = unsafe { list(options, option_count) };
    let answer = guarded(|| {
        let limits = choices(words).ok_or(UNKNOWN_OPTION)?;
        advances(font, index, at, glyphs, &limits).map_err(status_of)
    });
    let made = match answer {
        Ok(made) => made,
        Err(status) => return status,
    };
    if width_count < glyphs.len() || height_count < glyphs.len() {
        return TOO_SMALL;
    }
    unsafe {
        hand_items(Ok(&made.widths), Buffer::new(widths, width_count));
        hand_items(Ok(&made.heights), Buffer::new(heights, height_count));
        units_per_em.write(u32::from(made.units_per_em));
    }
    DONE
}

/// See `subsetter.h`.
///
/// # Safety
///
/// What the header requires of a caller.
#[no_mangle]
pub unsafe extern "C" fn subsetter_glyph_kinds(
    font: *const u8,
    font_size: usize,
    index: u32,
    glyphs: *const u16,
    glyph_count: usize,
    kinds: *mut u32,
    kind_count: usize,
) -> u32 {
    let font = unsafe { list(font, font_size) };
    let glyphs = unsafe { list(glyphs, glyph_count) };
    let answer = guarded(|| kinds_of(font, index, glyphs).map_err(status_of));
    let answer = answer.as_ref().map(Vec::as_slice).map_err(|status| *status);
    let (_, status) = hand_items(answer, unsafe { Buffer::new(kinds, kind_count) });
    status
}
