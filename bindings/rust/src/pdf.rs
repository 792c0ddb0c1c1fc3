//! All that a PDF has of a font, from one call: the font program, the codes, the widths, the values of the font descriptor,
//! ToUnicode and the CMap of the codes.
//!
//! Sections and tables in brackets are those of ISO 32000-1. Lengths are in thousandths of the em, angles in thousandths of a
//! degree.
//!
//! ```
//! use subsetter::pdf::{glyphs_of, pdf_font, FontOptions};
//!
//! # fn main() -> Result<(), subsetter::pdf::FontError> {
//! # let data = include_bytes!("../tests/data/made.ttf");
//! // `data` is a whole font file. A text without shaping: each character has the glyph that `cmap` gives it.
//! let shown = glyphs_of(data, 0, "ABBA")?;
//! let font = pdf_font(data, 0, &[], &shown, &FontOptions::new())?;
//! // Strings of the page hold the codes, two bytes each.
//! assert_eq!(font.codes(), [1, 2, 2, 1]);
//! assert_eq!(font.widths(), [500, 667, 667]);
//! assert_eq!(font.descriptor().cap_height, 688);
//! assert!(font.to_unicode().starts_with(b"/CIDInit"));
//! # Ok(())
//! # }
//! ```

mod advance;
mod calls;
mod error;
mod font;
mod kinds;
mod objects;
mod options;
mod parts;
mod shown;
mod text;
mod values;
mod written;

pub use advance::{advances, advances_with_limits, Advances};
pub use error::{FontError, TextError};
pub use font::PdfFont;
pub use kinds::{kinds_of, GlyphKind, GlyphKinds};
pub use objects::{Dictionaries, Layout, Objects, References};
pub use options::{Bounds, ClusterUnit, Codes, Direction, FontOptions, Order, ProgramChoice};
pub use options::{Rights, SubsetTag, TextOptions};
pub(crate) use parts::parts_of;
pub use parts::{Part, PartsError, Role};
pub use shown::{Shown, TextGlyphs};
pub use text::{Item, Run, RunDirection, ShapedGlyph, Text};
pub use values::{Cmap, Column, Columns, Descriptor, Permission, ProgramKind, Usage};

use crate::proved::pdf_font as proved;
use crate::proved::subsetter as subsetting;
use crate::proved::subsetter_sfnt::parse::parse;
use crate::proved::text_glyphs::{self as reading, find_source, TextSource};
use crate::rattle::alloc::Global;
use crate::{library, Error, Tag};
use alloc::vec::Vec;

/// A list with room for `count` items.
pub(crate) fn with_room<T>(count: usize) -> Result<Vec<T>, Error> {
    let mut list = Vec::new();
    list.try_reserve_exact(count)
        .map_err(|_| Error::OutOfMemory)?;
    Ok(list)
}

/// A list of these characters.
fn listed(characters: impl Iterator<Item = char> + Clone) -> Result<Vec<char>, Error> {
    let mut list = with_room(characters.clone().count())?;
    list.extend(characters);
    Ok(list)
}

/// The tables of a font's `cmap` by which characters have glyphs.
fn text_source(data: &[u8], index: u32) -> Result<TextSource<'_>, FontError> {
    let face = parse(data, index, subsetting::Extras::ALL).map_err(library::refused)?;
    let bytes = face.stored(subsetting::Tag::new(b"cmap"));
    bytes.and_then(find_source).ok_or(FontError::NoCmap)
}

/// The glyph of each of these characters, by the font's table `cmap`.
pub(crate) fn glyphs_by_cmap(
    data: &[u8],
    index: u32,
    characters: impl Iterator<Item = char> + Clone,
) -> Result<impl Iterator<Item = u16>, FontError> {
    let source = text_source(data, index)?;
    let list = listed(characters)?;
    let glyphs = reading::glyphs_of(Global, &source.table, &list);
    let glyphs = glyphs.map_err(|_| Error::OutOfMemory)?;
    Ok(glyphs.into_inner().into_iter())
}

/// The entries of these characters, and the places of what the font lacks.
pub(crate) fn read_characters(
    data: &[u8],
    index: u32,
    characters: impl Iterator<Item = char> + Clone,
) -> Result<reading::ReadText, FontError> {
    let source = text_source(data, index)?;
    let list = listed(characters)?;
    let read = reading::read_text(Global, &source, &list);
    Ok(read.map_err(|_| Error::OutOfMemory)?)
}

/// The glyph of each character of a text, by the font's table `cmap`, with the character as its text.
///
/// The text isn't shaped: there are no ligatures, no kerning, no reordering and no marks put in position, as a writer of Latin,
/// Greek, Cyrillic or CJK mostly does without, and a writer of Arabic or Devanagari doesn't.
///
/// - A character that the font lacks gets glyph 0, and [`missing`](TextGlyphs::missing) has its place.
/// - A character and a variation selector get one glyph: that of the table of format 14, else the character's.
/// - Default ignorables (soft hyphens, joiners, marks of direction, selectors) get none: each belongs to the text of the entry
///   before it, or of the one after it where none is before.
/// - Controls, tabs and line ends too, get none, and are among the missing.
///
/// The first Unicode table of format 12 is taken, else the first of format 4, else one of format 0, 6 or 13; else a symbol table,
/// which has the characters below U+0100 from U+F000 on; else one of Mac OS Roman.
///
/// ```
/// use subsetter::pdf::{glyphs_of, Shown};
///
/// # fn main() -> Result<(), subsetter::pdf::FontError> {
/// # let data = include_bytes!("../tests/data/made.ttf");
/// let found = glyphs_of(data, 0, "A\u{ad}\tB\u{3b1}")?;
/// assert_eq!(found[..], [Shown::new(1, "A\u{ad}"), Shown::new(2, "B"), Shown::new(0, "\u{3b1}")]);
/// // Bytes of the text: the tab, and a letter that the font lacks.
/// assert_eq!(found.missing(), [3, 5]);
/// # Ok(())
/// # }
/// ```
///
/// # Errors
///
/// [`FontError::Subset`]: it is no font, its directory is cut, or it has no such face; [`FontError::NoCmap`]: it has no such table.
/// A font without outlines will do.
pub fn glyphs_of<'a>(data: &[u8], index: u32, text: &'a str) -> Result<TextGlyphs<'a>, FontError> {
    let read = read_characters(data, index, text.chars())?;
    let mut places = with_room(text.chars().count() + 1)?;
    places.extend(text.char_indices().map(|(at, _)| at));
    places.push(text.len());
    let mut shown = with_room(read.entries.len())?;
    shown.extend(read.entries.iter().map(|it| Shown {
        glyph: it.glyph,
        text: &text[places[it.start]..places[it.end]],
    }));
    let mut missing = with_room(read.missing.len())?;
    missing.extend(read.missing.iter().map(|it| places[*it]));
    Ok(TextGlyphs::new(shown, missing))
}

/// The characters of all texts, one after the other.
fn characters(shown: &[Shown<'_>]) -> Result<Vec<char>, Error> {
    let mut list = with_room(shown.iter().map(|it| it.text.chars().count()).sum())?;
    list.extend(shown.iter().flat_map(|it| it.text.chars()));
    Ok(list)
}

/// The glyphs in use as the proved calls take them: `characters` are those of their texts.
fn taken<'a>(
    shown: &[Shown<'_>],
    mut characters: &'a [char],
) -> Result<Vec<proved::Shown<'a>>, Error> {
    let mut list = with_room(shown.len())?;
    for it in shown {
        let (text, behind) = characters.split_at(it.text.chars().count());
        characters = behind;
        let glyph = it.glyph;
        list.push(proved::Shown { glyph, text });
    }
    Ok(list)
}

/// The code of each entry, in order, as [`pdf_font`] gives it. It takes no font, so that pages can be written first.
///
/// Where a list goes on, the codes of the entries before stay.
///
/// # Errors
///
/// [`Error::OverflowError`]: more than 65,535 glyphs ([`Codes::Consecutive`]) or pairs of a glyph and a text
/// ([`Codes::EachText`]), with glyph 0; [`Error::OutOfMemory`].
pub fn codes_of(shown: &[Shown<'_>], codes: Codes) -> Result<Vec<u16>, Error> {
    let characters = characters(shown)?;
    let shown = taken(shown, &characters)?;
    let found = proved::codes_of(Global, &shown, codes.chosen());
    Ok(found.map_err(library::refused)?.into_inner())
}

/// All that a PDF has of a font for the glyphs in use, at coordinates (none: the font's default).
///
/// `data`, `index` and `variation_coordinates` are as for [`embed_with_variations`](crate::embed_with_variations), which makes
/// the font program; names of the font and of its glyphs are never kept. `shown` are glyphs in order of use, with repeats if
/// need be.
///
/// ```
/// use subsetter::pdf::{pdf_font, Codes, Direction, FontOptions, Shown};
/// use subsetter::Tag;
///
/// # fn main() -> Result<(), subsetter::pdf::FontError> {
/// # let data = include_bytes!("../tests/data/made_variable.ttf");
/// // As a shaper has them: glyph 5 is a ligature.
/// let shown = [Shown::new(1, "A"), Shown::new(5, "fi")];
/// let options = FontOptions::new().codes(Codes::Source).direction(Direction::Vertical);
/// let font = pdf_font(data, 0, &[(Tag::new(b"wght"), 650.0)], &shown, &options)?;
/// assert_eq!(font.codes(), [1, 5]);
/// assert_eq!(font.cids(), [1, 2]);
/// assert!(font.encoding().is_some() && font.columns().is_some());
/// # Ok(())
/// # }
/// ```
///
/// # Errors
///
/// The first of these that comes:
///
/// - [`FontError::Subset`]: the font can't be opened.
/// - [`FontError::NotPermitted`]: `fsType` of the table `OS/2` forbids embedding, subsets or outlines, and
///   [`Rights::Held`] isn't chosen.
/// - [`FontError::TextTooLong`]: a text has more than 256 UTF-16 units (512 bytes: 9.10.3).
/// - [`FontError::Subset`]: an error of [`embed_with_variations`](crate::embed_with_variations); [`Error::MalformedFont`]
///   where a font with outlines in `glyf` has no `maxp` (9.9); [`Error::OverflowError`] as in [`codes_of`].
///
/// No value of the font descriptor is a reason: where a table is missing or cut, another source of the value is taken.
pub fn pdf_font(
    data: &[u8],
    index: u32,
    variation_coordinates: &[(Tag, f32)],
    shown: &[Shown<'_>],
    options: &FontOptions,
) -> Result<PdfFont, FontError> {
    let coordinates = library::coordinates(variation_coordinates)?;
    let characters = characters(shown)?;
    let list = taken(shown, &characters)?;
    let chosen = options.chosen();
    let made = proved::pdf_font(Global, data, index, &coordinates, &list, &chosen);
    let made = made.map_err(FontError::of)?;
    Ok(PdfFont::new(made, kinds::unseen(data, index, shown)?)?)
}
