//! The calls of `subsetter.h`, and what they hand over. All `unsafe` code of the package is here.

use crate::{Error, Layout, PdfOptions};
use std::mem::zeroed;

/// `subsetter_coordinate`.
#[repr(C)]
struct Coordinate {
    tag: u32,
    value: i32,
}

/// Coordinates as the library takes them: in 65536ths, the nearest one, halves up. A value of NaN leaves its axis at the default.
fn coordinates(given: &[([u8; 4], f32)]) -> Vec<Coordinate> {
    let mut taken: Vec<Coordinate> = Vec::with_capacity(given.len());
    for (tag, value) in given {
        let tag = u32::from_be_bytes(*tag);
        if value.is_nan() {
            taken.retain(|it| it.tag != tag);
            continue;
        }
        // (exact in an f64, and the cast saturates)
        let value = (f64::from(*value) * 65536.0 + 0.5).floor() as i32;
        taken.push(Coordinate { tag, value });
    }
    taken
}

/// `subsetter_column` of `subsetter.h`: a CID in vertical writing, in thousandths of the em.
#[derive(Debug, Copy, Clone, Eq, PartialEq, Hash)]
#[repr(C)]
pub struct Column {
    pub advance: i32,
    pub x: i32,
    pub y: i32,
}

/// The numbers of `subsetter_pdf_font`, as `subsetter.h` describes them. Lengths are in thousandths of the em.
#[derive(Debug, Copy, Clone, Eq, PartialEq, Hash)]
#[repr(C)]
pub struct Numbers {
    pub kind: u32,
    pub is_vertical: u32,
    pub default_width: u32,
    pub default_column: [i32; 2],
    pub flags: u32,
    pub bounds: [i32; 4],
    pub italic_angle: i32,
    pub ascent: i32,
    pub descent: i32,
    pub cap_height: i32,
    pub has_x_height: u32,
    pub x_height: i32,
    pub stem_v: u32,
    pub font_weight: u32,
    pub usage: u32,
    pub may_subset: u32,
    pub may_embed_outlines: u32,
}

/// Structs of lists that the library hands over, each a pointer and a count, with a call that gives them back.
macro_rules! handed_over {
    ($(#[$about:meta])* $seen:vis $name:ident, $free:ident,
     {$($(#[$list_about:meta])* $list_seen:vis $list:ident: $item:ty, $count:ident;)*} $($rest:ident: $type:ty)?) => {
        $(#[$about])*
        #[repr(C)]
        $seen struct $name {
            $($list: *const $item, $count: usize,)*
            $(pub(crate) $rest: $type,)?
        }

        impl $name {
            fn nothing() -> Self {
                // SAFETY: the type has pointers and numbers alone, of which each may be 0.
                unsafe { zeroed() }
            }

            $($(#[$list_about])* $list_seen fn $list(&self) -> &[$item] {
                if self.$count == 0 {
                    return &[];
                }
                // SAFETY: the library handed the list over with its count, and it stays until `self` is dropped.
                unsafe { std::slice::from_raw_parts(self.$list, self.$count) }
            })*
        }

        // SAFETY: the lists are read alone, and given back once, in whatever thread; the library has nothing of a thread.
        unsafe impl Send for $name {}
        // SAFETY: as of `Send`.
        unsafe impl Sync for $name {}

        impl Drop for $name {
            fn drop(&mut self) {
                // SAFETY: a call of the library wrote `self`, or all is 0; and it is given back once.
                unsafe { $free(self) }
            }
        }
    };
}

handed_over!(pub(crate) Made, subsetter_free, {
    pub(crate) font: u8, font_size;
    pub(crate) cids: u16, cid_count;
    pub(crate) widths: u32, width_count;
});
handed_over!(
    /// What [`pdf_font`] made. An entry is a glyph in use with its text, as the call was given them.
    pub PdfFont, subsetter_free_pdf_font, {
    /// The font program.
    pub program: u8, program_size;
    /// The CID of each entry.
    pub cids: u16, cid_count;
    /// The code of each entry.
    pub codes: u16, code_count;
    /// Of each entry 1 where readers find its text by its code.
    pub text_is_mapped: u8, said_count;
    /// The width of each CID of the font program.
    pub widths: u32, width_count;
    /// In vertical writing each CID from 0 on that a string can show.
    pub columns: Column, column_count;
    pub(crate) name: u8, name_size;
    /// The ToUnicode CMap.
    pub to_unicode: u8, to_unicode_size;
    pub(crate) cmap: u8, cmap_size;
    pub(crate) cmap_name: u8, cmap_name_size;
    pub(crate) set: u8, set_size;
} numbers: Numbers);
handed_over!(Written, subsetter_free_pdf_objects, {
    bytes: u8, size;
    offsets: usize, offset_count;
});

#[rustfmt::skip]
extern "C" {
    fn subsetter_make_subset_by_words(font: *const u8, font_size: usize, index: u32, glyphs: *const u16, glyph_count: usize,
                                      options: *const u32, option_count: usize, made: *mut Made) -> u32;
    fn subsetter_make_embedded_by_words(font: *const u8, font_size: usize, index: u32, glyphs: *const u16, glyph_count: usize,
                                        options: *const u32, option_count: usize, made: *mut Made) -> u32;
    fn subsetter_make_subset_at_by_words(font: *const u8, font_size: usize, index: u32, coordinates: *const Coordinate,
                                         coordinate_count: usize, glyphs: *const u16, glyph_count: usize,
                                         options: *const u32, option_count: usize, made: *mut Made) -> u32;
    fn subsetter_make_embedded_at_by_words(font: *const u8, font_size: usize, index: u32, coordinates: *const Coordinate,
                                           coordinate_count: usize, glyphs: *const u16, glyph_count: usize,
                                           options: *const u32, option_count: usize, made: *mut Made) -> u32;
    fn subsetter_free(made: *mut Made);
    fn subsetter_glyphs_of(font: *const u8, font_size: usize, index: u32, text: *const u32, text_count: usize,
                           glyphs: *mut u16, glyph_count: usize, length: *mut usize) -> u32;
    fn subsetter_make_pdf_font_by_words(font: *const u8, font_size: usize, index: u32, coordinates: *const Coordinate,
                                        coordinate_count: usize, glyphs: *const u16, glyph_count: usize, text: *const u32,
                                        text_count: usize, ends: *const usize, end_count: usize,
                                        options: *const u32, option_count: usize, made: *mut PdfFont) -> u32;
    fn subsetter_free_pdf_font(made: *mut PdfFont);
    fn subsetter_make_pdf_objects(font: *const PdfFont, first: u32, made: *mut Written) -> u32;
    fn subsetter_make_pdf_sheet(font: *const PdfFont, glyphs: *const u16, glyph_count: usize, text: *const u32, text_count: usize,
                                ends: *const usize, end_count: usize, layout: u32, made: *mut Written) -> u32;
    fn subsetter_free_pdf_objects(made: *mut Written);
}

fn answered<T>(status: u32, made: T) -> Result<T, Error> {
    match status {
        0 => Ok(made),
        _ => Err(Error::of_status(status)),
    }
}

impl Made {
    /// A subset, with CIDs and widths or without. (No coordinates are another call than some: it refuses `CFF2`.)
    pub(crate) fn of(
        embeds: bool,
        data: &[u8],
        index: u32,
        given: &[([u8; 4], f32)],
        glyphs: &[u16],
        words: &[u32],
    ) -> Result<Self, Error> {
        let (mut made, at) = (Self::nothing(), coordinates(given));
        macro_rules! made_by {
            ($call:ident $(, $coordinates:expr, $number:expr)?) => {
                // SAFETY: each pointer is that of a slice, with its count, or of `made`, which is borrowed for writing alone.
                // The library keeps none of them.
                unsafe {
                    $call(
                        data.as_ptr(), data.len(), index, $($coordinates, $number,)? glyphs.as_ptr(), glyphs.len(), words.as_ptr(),
                        words.len(), &mut made,
                    )
                }
            };
        }
        let status = match (embeds, given.is_empty()) {
            (false, true) => made_by!(subsetter_make_subset_by_words),
            (true, true) => made_by!(subsetter_make_embedded_by_words),
            (false, false) => made_by!(subsetter_make_subset_at_by_words, at.as_ptr(), at.len()),
            (true, false) => made_by!(subsetter_make_embedded_at_by_words, at.as_ptr(), at.len()),
        };
        answered(status, made)
    }
}

/// Glyphs with their texts, as the library takes them.
#[derive(Default)]
struct Entries {
    glyphs: Vec<u16>,
    text: Vec<u32>,
    ends: Vec<usize>,
}

impl Entries {
    fn of(shown: &[(u16, &str)]) -> Self {
        let mut entries = Self::default();
        for (glyph, text) in shown {
            entries.glyphs.push(*glyph);
            entries.text.extend(text.chars().map(u32::from));
            entries.ends.push(entries.text.len());
        }
        entries
    }
}

/// The glyph of each character of a text, by the font's `cmap`: 0 where it has none. The text isn't shaped.
///
/// # Errors
///
/// [`Error::UnknownKind`], [`Error::MalformedFont`] (also without a Unicode table) and [`Error::OutOfMemory`].
pub fn glyphs_of(data: &[u8], index: u32, text: &str) -> Result<Vec<u16>, Error> {
    let text: Vec<u32> = text.chars().map(u32::from).collect();
    let (mut glyphs, mut length) = (vec![0; text.len()], 0);
    let (room, count) = (glyphs.as_mut_ptr(), glyphs.len());
    // SAFETY: each pointer is that of a slice, with its count, or of `glyphs` or `length`, which are borrowed for writing alone.
    let status = unsafe {
        subsetter_glyphs_of(data.as_ptr(), data.len(), index, text.as_ptr(), text.len(), room, count, &mut length)
    };
    answered(status, glyphs)
}

/// All that a PDF has of a font for glyphs in use, each with its text, at coordinates as of [`subset`](crate::subset).
///
/// # Errors
///
/// All of [`Error`]; of a tag that isn't six capitals [`Error::UnknownOption`].
pub fn pdf_font(
    data: &[u8],
    index: u32,
    coordinates: &[([u8; 4], f32)],
    shown: &[(u16, &str)],
    options: &PdfOptions,
) -> Result<PdfFont, Error> {
    let (at, words) = (self::coordinates(coordinates), options.words());
    let Entries { glyphs, text, ends } = Entries::of(shown);
    let mut made = PdfFont::nothing();
    // SAFETY: each pointer is that of a slice, with its count, or of `made`, which is borrowed for writing alone. The library
    // keeps none of them.
    let status = unsafe {
        subsetter_make_pdf_font_by_words(
            data.as_ptr(),
            data.len(),
            index,
            at.as_ptr(),
            at.len(),
            glyphs.as_ptr(),
            glyphs.len(),
            text.as_ptr(),
            text.len(),
            ends.as_ptr(),
            ends.len(),
            words.as_ptr(),
            words.len(),
            &mut made,
        )
    };
    answered(status, made)
}

impl PdfFont {
    /// The objects of the font, with numbers from `first` on.
    ///
    /// # Errors
    ///
    /// [`Error::OverflowError`] where seven numbers from `first` on don't fit 32 bits, and [`Error::OutOfMemory`].
    pub fn objects(&self, first: u32) -> Result<Objects, Error> {
        let mut made = Written::nothing();
        // SAFETY: the library handed `self` over, and it is unchanged; `made` is borrowed for writing alone.
        let status = unsafe { subsetter_make_pdf_objects(self, first, &mut made) };
        answered(status, made).map(|made| Objects { bytes: made.bytes().to_vec(), offsets: made.offsets().to_vec() })
    }

    /// A whole PDF file that shows the glyphs that the font was made of, or the first of them.
    ///
    /// # Errors
    ///
    /// [`Error::OverflowError`] and [`Error::OutOfMemory`].
    pub fn sheet(&self, shown: &[(u16, &str)], layout: Layout) -> Result<Vec<u8>, Error> {
        let Entries { glyphs, text, ends } = Entries::of(shown);
        let mut made = Written::nothing();
        // SAFETY: as of `objects`; each further pointer is that of a slice, with its count. The library keeps none of them.
        let status = unsafe {
            subsetter_make_pdf_sheet(
                self,
                glyphs.as_ptr(),
                glyphs.len(),
                text.as_ptr(),
                text.len(),
                ends.as_ptr(),
                ends.len(),
                layout as u32,
                &mut made,
            )
        };
        answered(status, made).map(|made| made.bytes().to_vec())
    }
}

/// The objects of a font for a PDF file.
#[derive(Debug, Clone, Eq, PartialEq, Hash)]
pub struct Objects {
    /// The objects, one after the other.
    pub bytes: Vec<u8>,
    /// Where each begins in these bytes.
    pub offsets: Vec<usize>,
}
