//! The fonts for a PDF, as C has them: lists and numbers, and what is written of them.

mod advance;
mod runs;
mod texts;

pub use advance::{advances, kinds_of};
pub use runs::{show_items, show_shaped, text_font, text_lists};
pub use runs::{GlyphMetrics, RunError, Shaped, ShownLists, TextItem, TextOwn, TextPair, TextPart};
pub use runs::{TextView, Units};
pub use texts::{codes_of, TextEntries};

use super::{settings, Coordinate};
use crate::library::refused;
use crate::pdf::{glyphs_by_cmap, parts_of, read_characters, with_room};
use crate::pdf::{FontError, Part, PartsError};
use crate::proved::pdf_font::{
    self as proved, Bounds, Direction, ProgramChoice, ProgramKind, Rights, Usage,
};
use crate::proved::pdf_objects::{part_count, write_objects, write_sheet, FontView, Layout};
use crate::proved::pdf_sheet::{write_lines, SheetLine};
use crate::proved::pdf_text::{DefaultColumn, Descriptor, FontColumns, FontValues, OwnCmap};
use crate::proved::subsetter as subsetting;
use crate::proved::subsetter_variable::check_opening_at;
use crate::rattle::alloc::Global;
use crate::Error;
use ::alloc::vec::Vec;

/// All that a caller of C can choose of a font for a PDF.
#[derive(Clone, Copy)]
pub struct FontChoices(proved::FontOptions);

pub use crate::proved::pdf_text::Column;
pub use crate::proved::text_glyphs::Entry;

/// 0 means the first, 1 the second.
fn first_or_second<T>(word: u32, first: T, second: T) -> Option<T> {
    match word {
        0 => Some(first),
        1 => Some(second),
        _ => None,
    }
}

/// The tag of two words with three letters each, the first in the higher bits; two words of 0 mean none.
fn tag_of(words: [u32; 2]) -> Option<Option<proved::SubsetTag>> {
    if words == [0, 0] {
        return Some(None);
    }
    let [[a, b, c, d], [e, f, g, h]] = words.map(u32::to_be_bytes);
    if a != 0 || e != 0 {
        return None;
    }
    proved::SubsetTag::new(&[b, c, d, f, g, h]).map(Some)
}

impl FontChoices {
    /// The choices of the words after those of `subsetter_options`: program, codes, direction, bounds, CIDSet, rights, and the
    /// two of the tag. None where one isn't known.
    pub fn new(limits: &super::Choices, words: [u32; 8]) -> Option<Self> {
        let [program, codes, direction, bounds, cid_set, rights, front, back] = words;
        Some(Self(proved::FontOptions {
            limits: limits.0.limits,
            hinting: limits.0.extras.hinting,
            program: first_or_second(program, ProgramChoice::Smallest, ProgramChoice::OpenType)?,
            codes: texts::codes_chosen(codes)?,
            direction: first_or_second(direction, Direction::Horizontal, Direction::Vertical)?,
            bounds: first_or_second(bounds, Bounds::Font, Bounds::Kept)?,
            cid_set: first_or_second(cid_set, false, true)?,
            tag: tag_of([front, back])?,
            rights: first_or_second(rights, Rights::AsSaid, Rights::Held)?,
        }))
    }
}

/// The lists of a font.
pub struct FontLists {
    /// The font program.
    pub program: Vec<u8>,
    /// The CID of each entry.
    pub cids: Vec<u16>,
    /// The code of each entry.
    pub codes: Vec<u16>,
    /// Of each entry whether its code says its text.
    pub is_said: Vec<bool>,
    /// The width of each CID.
    pub widths: Vec<u32>,
    /// The columns of CIDs that strings can show.
    pub columns: Vec<Column>,
    /// FontName.
    pub font_name: Vec<u8>,
    /// ToUnicode.
    pub to_unicode: Vec<u8>,
    /// The CMap of the file's own, or nothing.
    pub encoding: Vec<u8>,
    /// Its name.
    pub encoding_name: Vec<u8>,
    /// CIDSet, or nothing.
    pub cid_set: Vec<u8>,
    /// CIDToGIDMap, or nothing.
    pub cid_to_gid_map: Vec<u8>,
    /// unitsPerEm.
    pub units_per_em: u16,
    /// The width of each CID, in the font's units.
    pub exact_widths: Vec<u16>,
    /// The axes that the font doesn't have, with the first letter in the highest bits.
    pub unknown_axes: Vec<u32>,
}

/// The numbers of a font, as `subsetter_pdf_font` ends with them.
#[derive(Debug, Clone, Copy, Default, Eq, PartialEq)]
#[repr(C)]
pub struct FontNumbers {
    /// 0: TrueType, 1: bare CFF, 2: OpenType.
    pub kind: u32,
    /// Whether text runs from top to bottom.
    pub is_vertical: u32,
    /// DW.
    pub default_width: u32,
    /// DW2.
    pub default_column: [i32; 2],
    /// Flags.
    pub flags: u32,
    /// FontBBox.
    pub bounds: [i32; 4],
    /// ItalicAngle, in thousandths of a degree.
    pub italic_angle: i32,
    /// Ascent.
    pub ascent: i32,
    /// Descent.
    pub descent: i32,
    /// CapHeight.
    pub cap_height: i32,
    /// Whether there is an XHeight.
    pub has_x_height: u32,
    /// XHeight.
    pub x_height: i32,
    /// StemV.
    pub stem_v: u32,
    /// FontWeight.
    pub font_weight: u32,
    /// 0: unsaid, 1: installable, 2: editable, 3: preview and print, 4: restricted.
    pub usage: u32,
    /// Whether subsets are permitted.
    pub may_subset: u32,
    /// Whether outlines are permitted.
    pub may_embed_outlines: u32,
}

impl FontNumbers {
    fn of(font: &proved::PdfFont) -> Self {
        let values = font.descriptor.values;
        let (edges, heights) = (values.bounds, values.heights);
        let column = font.columns.as_ref().map(|it| it.default);
        Self {
            kind: match font.kind {
                ProgramKind::TrueType => 0,
                ProgramKind::BareCff => 1,
                ProgramKind::OpenType => 2,
            },
            is_vertical: u32::from(font.columns.is_some()),
            default_width: font.default_width,
            default_column: column.map_or([0, 0], |it| [it.y, it.advance]),
            flags: values.flags,
            bounds: [edges.x_min, edges.y_min, edges.x_max, edges.y_max],
            italic_angle: values.italic_angle,
            ascent: heights.ascent,
            descent: heights.descent,
            cap_height: heights.cap_height,
            has_x_height: u32::from(heights.x_height.is_some()),
            x_height: heights.x_height.unwrap_or(0),
            stem_v: values.stem_v,
            font_weight: u32::from(values.font_weight),
            usage: match font.permission.usage {
                Usage::Unsaid => 0,
                Usage::Installable => 1,
                Usage::Editable => 2,
                Usage::PreviewAndPrint => 3,
                Usage::Restricted => 4,
            },
            may_subset: u32::from(font.permission.subsetting),
            may_embed_outlines: u32::from(font.permission.outlines),
        }
    }
}

/// The glyphs in use, as C has them: each entry's text ends where the list says it, and begins where the one before ends.
#[derive(Clone, Copy)]
pub struct Entries<'a> {
    /// The glyph of each entry.
    pub glyphs: &'a [u16],
    /// The characters of all texts.
    pub text: &'a [u32],
    /// Where the text of each entry ends.
    pub ends: &'a [usize],
}

/// Why there is no list of entries.
enum EntryError {
    /// A number is no character, or an end is none.
    Text,
    /// Memory was refused.
    OutOfMemory,
}

impl From<Error> for EntryError {
    fn from(_refused: Error) -> Self {
        Self::OutOfMemory
    }
}

impl Entries<'_> {
    /// No entries.
    pub const NONE: Self = Self {
        glyphs: &[],
        text: &[],
        ends: &[],
    };

    /// Whether each number is a character, and each entry has an end that is in its order.
    pub fn are_known(&self) -> bool {
        let mut last = 0;
        let in_order = |end: &usize| core::mem::replace(&mut last, *end) <= *end;
        self.text.iter().all(|it| char::from_u32(*it).is_some())
            && self.glyphs.len() == self.ends.len()
            && self.ends.iter().all(in_order)
            && last <= self.text.len()
    }

    /// The characters of all texts.
    ///
    /// # Errors
    ///
    /// Those of the type.
    fn characters(&self) -> Result<Vec<char>, EntryError> {
        if !self.are_known() {
            return Err(EntryError::Text);
        }
        let mut list = with_room(self.text.len())?;
        list.extend(self.text.iter().filter_map(|it| char::from_u32(*it)));
        Ok(list)
    }

    /// The entries as the proved calls take them, with these characters.
    fn shown<'a>(&self, characters: &'a [char]) -> Result<Vec<proved::Shown<'a>>, EntryError> {
        let mut list = with_room(self.glyphs.len())?;
        let mut start = 0;
        for (glyph, end) in self.glyphs.iter().zip(self.ends) {
            let text = &characters[start..*end];
            list.push(proved::Shown {
                glyph: *glyph,
                text,
            });
            start = *end;
        }
        Ok(list)
    }
}

/// Why a caller of C gets no font.
pub enum Refusal {
    /// An error of the font.
    Font(FontError),
    /// A text isn't one.
    Text,
}

impl From<Error> for Refusal {
    fn from(error: Error) -> Self {
        Self::Font(FontError::Subset(error))
    }
}

impl From<FontError> for Refusal {
    fn from(error: FontError) -> Self {
        Self::Font(error)
    }
}

impl From<EntryError> for Refusal {
    fn from(error: EntryError) -> Self {
        match error {
            EntryError::Text => Self::Text,
            EntryError::OutOfMemory => Error::OutOfMemory.into(),
        }
    }
}

/// The lists and numbers of a font that was made.
fn parted(font: proved::PdfFont) -> Result<(FontLists, FontNumbers), Error> {
    let numbers = FontNumbers::of(&font);
    let mut unknown_axes = with_room(font.unknown_axes.len())?;
    let number = |tag: &subsetting::Tag| u32::from_be_bytes(*tag.get());
    unknown_axes.extend(font.unknown_axes.iter().map(number));
    let (name, encoding) = match font.encoding {
        Some(cmap) => (cmap.name.into_inner(), cmap.text.into_inner()),
        None => (Vec::new(), Vec::new()),
    };
    let lists = FontLists {
        program: font.program.into_inner(),
        cids: font.cids.into_inner(),
        codes: font.codes.into_inner(),
        is_said: font.is_said.into_inner(),
        widths: font.widths.into_inner(),
        columns: font
            .columns
            .map_or_else(Vec::new, |it| it.each.into_inner()),
        font_name: font.descriptor.font_name.into_inner(),
        to_unicode: font.to_unicode.into_inner(),
        encoding,
        encoding_name: name,
        cid_set: font.cid_set.map_or_else(Vec::new, |it| it.into_inner()),
        cid_to_gid_map: Vec::new(),
        units_per_em: font.units_per_em,
        exact_widths: font.exact_widths.into_inner(),
        unknown_axes,
    };
    Ok((lists, numbers))
}

/// All that a PDF has of a font. For a font that can't be opened its fault is returned, whatever memory there is.
///
/// # Errors
///
/// Those of [`pdf_font`](crate::pdf::pdf_font), and first of all a text that isn't one.
pub fn pdf_font(
    data: &[u8],
    index: u32,
    coordinates: &[Coordinate],
    entries: Entries<'_>,
    choices: &FontChoices,
) -> Result<(FontLists, FontNumbers), Refusal> {
    let open = super::Choices::new(1, 1).map(|it| it.keeping(choices.0.hinting, false, false));
    // (the depth isn't 0)
    let open = open.ok_or(Refusal::Text)?;
    let or_opening = |error: EntryError| match error {
        EntryError::Text => Refusal::Text,
        EntryError::OutOfMemory => match check_opening_at(data, index, open.0.extras) {
            Ok(()) => Error::OutOfMemory.into(),
            Err(fault) => refused(fault).into(),
        },
    };
    let characters = entries.characters().map_err(or_opening)?;
    let shown = entries.shown(&characters).map_err(or_opening)?;
    let at = settings(data, index, coordinates, &open)?;
    let made = proved::pdf_font(Global, data, index, &at, &shown, &choices.0);
    let made = made.map_err(|error| Refusal::Font(FontError::of(error)))?;
    Ok(parted(made)?)
}

/// A font that was made, as a caller of C has it.
#[derive(Clone, Copy)]
pub struct FontParts<'a> {
    /// The font program.
    pub program: &'a [u8],
    /// The CID of each entry.
    pub cids: &'a [u16],
    /// The code of each entry.
    pub codes: &'a [u16],
    /// Of each entry whether its code says its text.
    pub is_said: &'a [bool],
    /// The width of each CID.
    pub widths: &'a [u32],
    /// The columns.
    pub columns: &'a [Column],
    /// FontName.
    pub font_name: &'a [u8],
    /// ToUnicode.
    pub to_unicode: &'a [u8],
    /// The CMap of the file's own, or nothing.
    pub encoding: &'a [u8],
    /// Its name.
    pub encoding_name: &'a [u8],
    /// CIDSet, or nothing.
    pub cid_set: &'a [u8],
    /// CIDToGIDMap, or nothing.
    pub cid_to_gid_map: &'a [u8],
    /// The numbers.
    pub numbers: FontNumbers,
}

impl FontNumbers {
    fn kind(&self) -> ProgramKind {
        match self.kind {
            0 => ProgramKind::TrueType,
            1 => ProgramKind::BareCff,
            _ => ProgramKind::OpenType,
        }
    }
}

impl<'a> FontParts<'a> {
    /// The columns, where text runs from top to bottom.
    fn columns(&self) -> Option<FontColumns<'a>> {
        let [y, advance] = self.numbers.default_column;
        Some(FontColumns {
            each: self.columns,
            default: DefaultColumn { y, advance },
        })
        .filter(|_| self.numbers.is_vertical != 0)
    }

    /// The font as the proved calls borrow it. There is a CMap, a CIDSet, and a CIDToGIDMap as a stream, where
    /// it has bytes.
    fn view(&self) -> FontView<'a> {
        let numbers = self.numbers;
        let values = FontValues {
            kind: numbers.kind(),
            descriptor: Descriptor {
                font_name: self.font_name,
                flags: numbers.flags,
                bounds: numbers.bounds,
                italic_angle: numbers.italic_angle,
                ascent: numbers.ascent,
                descent: numbers.descent,
                cap_height: numbers.cap_height,
                x_height: Some(numbers.x_height).filter(|_| numbers.has_x_height != 0),
                stem_v: numbers.stem_v,
                font_weight: numbers.font_weight as u16,
            },
            widths: self.widths,
            default_width: numbers.default_width,
            columns: self.columns(),
            program: self.program,
            cid_to_gid_map: Some(self.cid_to_gid_map).filter(|it| !it.is_empty()),
            to_unicode: self.to_unicode,
            encoding: Some(OwnCmap {
                name: self.encoding_name,
                text: self.encoding,
            })
            .filter(|it| !it.text.is_empty()),
            cid_set: Some(self.cid_set).filter(|it| !it.is_empty()),
        };
        FontView {
            values,
            cids: self.cids,
            codes: self.codes,
            is_said: self.is_said,
        }
    }

    /// The objects of the font with numbers from one on, and where each begins.
    ///
    /// # Errors
    ///
    /// Those of [`PdfFont::objects`](crate::pdf::PdfFont::objects).
    pub fn objects(&self, first: u32) -> Result<(Vec<u8>, Vec<usize>), Error> {
        let made = write_objects(Global, self.view().values, first).map_err(refused)?;
        Ok((made.text.into_inner(), made.offsets.into_inner()))
    }

    /// How many objects it has.
    pub fn part_count(&self) -> u32 {
        part_count(self.view().values) as u32
    }

    /// The objects of the font as data, with these numbers.
    ///
    /// # Errors
    ///
    /// Those of [`PdfFont::parts`](crate::pdf::PdfFont::parts).
    pub fn parts(&self, numbers: &[u32]) -> Result<Vec<Part<'a>>, PartsError> {
        parts_of(self.view().values, numbers)
    }

    /// A whole PDF of these entries, in a grid or in a line.
    ///
    /// # Errors
    ///
    /// Those of [`PdfFont::sheet`](crate::pdf::PdfFont::sheet), and a text that isn't one.
    pub fn sheet(&self, entries: Entries<'_>, is_grid: bool) -> Result<Vec<u8>, Refusal> {
        let characters = entries.characters()?;
        let shown = entries.shown(&characters)?;
        let layout = if is_grid { Layout::Grid } else { Layout::Line };
        let made = write_sheet(Global, self.view(), &shown, layout);
        Ok(made.map_err(refused)?.into_inner())
    }

    /// A whole PDF of runs, each by its operators, and how far the pen goes on.
    ///
    /// # Errors
    ///
    /// Those of [`Text::sheet`](crate::pdf::Text::sheet) after those of the font.
    pub fn text_sheet<'b>(
        &self,
        runs: impl ExactSizeIterator<Item = (&'b [u8], u32)>,
    ) -> Result<Vec<u8>, Error> {
        let mut lines = with_room(runs.len())?;
        lines.extend(runs.map(|(operators, advance)| SheetLine { operators, advance }));
        let made = write_lines(Global, self.view().values, &lines);
        Ok(made.map_err(refused)?.into_inner())
    }
}

/// These characters, as far as each number is one.
fn known(characters: &[u32]) -> Result<impl Iterator<Item = char> + Clone + '_, Refusal> {
    if characters.iter().any(|it| char::from_u32(*it).is_none()) {
        return Err(Refusal::Text);
    }
    Ok(characters.iter().filter_map(|it| char::from_u32(*it)))
}

/// The glyph of each of these characters.
///
/// # Errors
///
/// Those of [`glyphs_of`](crate::pdf::glyphs_of), and first of all a number that is no character.
pub fn glyphs_of(data: &[u8], index: u32, characters: &[u32]) -> Result<Vec<u16>, Refusal> {
    let found = glyphs_by_cmap(data, index, known(characters)?)?;
    let mut glyphs = with_room(characters.len())?;
    glyphs.extend(found);
    Ok(glyphs)
}

/// A text read without shaping: entries, and the places of what the font lacks.
pub struct ReadLists {
    /// The entries.
    pub entries: Vec<Entry>,
    /// The places, as numbers of characters.
    pub missing: Vec<usize>,
}

/// Reads a text without shaping.
///
/// # Errors
///
/// Those of [`glyphs_of`](crate::pdf::glyphs_of), and first of all a number that is no character.
pub fn read_text(data: &[u8], index: u32, characters: &[u32]) -> Result<ReadLists, Refusal> {
    let read = read_characters(data, index, known(characters)?)?;
    Ok(ReadLists {
        entries: read.entries.into_inner(),
        missing: read.missing.into_inner(),
    })
}
