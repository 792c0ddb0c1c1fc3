//! What a PDF has of a font.

use super::{with_room, Cmap, Column, Columns, Descriptor, Permission, ProgramKind};
use crate::proved::pdf_font as proved;
use crate::proved::pdf_objects::{view_with, FontView};
use crate::{Error, Tag};
use alloc::vec::Vec;
use core::{fmt, str};

/// All that a PDF has of a font for the glyphs in use: what [`pdf_font`](super::pdf_font) returns.
///
/// An entry is a glyph in use with its text, as the call was given them.
pub struct PdfFont {
    made: proved::PdfFont,
    cid_to_gid_map: Option<Vec<u8>>,
    columns: Vec<Column>,
    unknown_axes: Vec<Tag>,
    unseen: Vec<usize>,
}

/// A text of bytes between 33 and 126.
fn text(bytes: &[u8]) -> &str {
    str::from_utf8(bytes).unwrap_or_default()
}

impl PdfFont {
    /// The font, whose entries at these places are unseen.
    pub(super) fn new(made: proved::PdfFont, unseen: Vec<usize>) -> Result<Self, Error> {
        let mut font = Self::with_map(made, None)?;
        font.unseen = unseen;
        Ok(font)
    }

    /// The font of a text.
    pub(super) fn with_map(
        made: proved::PdfFont,
        cid_to_gid_map: Option<Vec<u8>>,
    ) -> Result<Self, Error> {
        let each = made.columns.as_ref().map_or(&[][..], |it| &it.each);
        let mut columns = with_room(each.len())?;
        columns.extend(each.iter().map(|it| Column {
            advance: it.advance,
            x: it.x,
            y: it.y,
        }));
        let mut unknown_axes = with_room(made.unknown_axes.len())?;
        unknown_axes.extend(made.unknown_axes.iter().map(|it| Tag::new(it.get())));
        Ok(Self {
            made,
            cid_to_gid_map,
            columns,
            unknown_axes,
            unseen: Vec::new(),
        })
    }

    /// The font as what writes it borrows it.
    pub(super) fn view(&self) -> FontView<'_> {
        view_with(&self.made, self.cid_to_gid_map.as_deref())
    }

    /// The font program.
    pub fn program(&self) -> &[u8] {
        &self.made.program
    }

    /// The font program alone, without a copy.
    pub fn into_program(self) -> Vec<u8> {
        self.made.program.into_inner()
    }

    /// What the font program is.
    pub fn kind(&self) -> ProgramKind {
        ProgramKind::of(self.made.kind)
    }

    /// How many glyphs the font program has: its CIDs are the numbers below.
    pub fn glyph_count(&self) -> u16 {
        self.made.glyph_count
    }

    /// The CID of each entry.
    pub fn cids(&self) -> &[u16] {
        &self.made.cids
    }

    /// The code of each entry, which strings hold in two bytes, the higher first.
    pub fn codes(&self) -> &[u16] {
        &self.made.codes
    }

    /// The string that shows these codes, as `<00010002>`.
    ///
    /// # Errors
    ///
    /// [`Error::OutOfMemory`] alone.
    pub fn string(&self, codes: &[u16]) -> Result<Vec<u8>, Error> {
        let mut string = with_room(codes.len().saturating_mul(4).saturating_add(2))?;
        string.push(b'<');
        for code in codes {
            for at in [12, 8, 4, 0] {
                string.push(b"0123456789ABCDEF"[usize::from((*code >> at) & 15)]);
            }
        }
        string.push(b'>');
        Ok(string)
    }

    /// Of each entry whether readers find its text by its code; where they don't, ActualText says it (14.9.4).
    pub fn text_is_mapped(&self) -> &[bool] {
        &self.made.is_said
    }

    /// [`text_is_mapped`](Self::text_is_mapped).
    #[deprecated(note = "its name is `text_is_mapped`")]
    pub fn is_said(&self) -> &[bool] {
        self.text_is_mapped()
    }

    /// The width of each CID from 0 on, in thousandths of the em.
    pub fn widths(&self) -> &[u32] {
        &self.made.widths
    }

    /// The width of each CID from 0 on, in the font's units, as [`advances`](super::advances) gives it: [`widths`](Self::widths)
    /// before they are rounded.
    pub fn exact_widths(&self) -> &[u16] {
        &self.made.exact_widths
    }

    /// How many of the font's units the em has.
    pub fn units_per_em(&self) -> u16 {
        self.made.units_per_em
    }

    /// DW: the most frequent width.
    pub fn default_width(&self) -> u32 {
        self.made.default_width
    }

    /// The columns, where text runs from top to bottom.
    pub fn columns(&self) -> Option<Columns<'_>> {
        let default = self.made.columns.as_ref()?.default;
        Some(Columns {
            each: &self.columns,
            default: [default.y, default.advance],
        })
    }

    /// The values of the font descriptor.
    pub fn descriptor(&self) -> Descriptor<'_> {
        let proved::Descriptor { font_name, values } = &self.made.descriptor;
        let (edges, heights) = (values.bounds, values.heights);
        Descriptor {
            font_name: text(font_name),
            flags: values.flags,
            bounds: [edges.x_min, edges.y_min, edges.x_max, edges.y_max],
            italic_angle: values.italic_angle,
            ascent: heights.ascent,
            descent: heights.descent,
            cap_height: heights.cap_height,
            x_height: heights.x_height,
            stem_v: values.stem_v,
            font_weight: values.font_weight,
        }
    }

    /// The axes that coordinates were given for and that the font doesn't have, in the order given, each once.
    pub fn unknown_axes(&self) -> &[Tag] {
        &self.unknown_axes
    }

    /// The places of the entries that are blank though the font has a picture of the glyph: its outline is empty, and a PDF shows
    /// nothing else ([`kinds_of`](super::kinds_of) has the kinds). A blank alone, as a space, isn't among them.
    pub fn unseen(&self) -> &[usize] {
        &self.unseen
    }

    /// What the font's maker permits.
    pub fn permission(&self) -> Permission {
        Permission::of(self.made.permission)
    }

    /// The bytes of CIDToGIDMap (9.7.4.2), where it is a stream; none where each CID is the number of a glyph.
    pub fn cid_to_gid_map(&self) -> Option<&[u8]> {
        self.cid_to_gid_map.as_deref()
    }

    /// The ToUnicode CMap (9.10.3).
    pub fn to_unicode(&self) -> &[u8] {
        &self.made.to_unicode
    }

    /// The CMap from codes to CIDs; none where each code is its CID, and Encoding is `Identity-H` or `Identity-V`.
    pub fn encoding(&self) -> Option<Cmap<'_>> {
        let cmap = self.made.encoding.as_ref()?;
        Some(Cmap {
            name: text(&cmap.name),
            text: &cmap.text,
        })
    }

    /// The bytes of CIDSet, if it was chosen.
    pub fn cid_set(&self) -> Option<&[u8]> {
        self.made.cid_set.as_deref()
    }
}

impl fmt::Debug for PdfFont {
    fn fmt(&self, f: &mut fmt::Formatter<'_>) -> fmt::Result {
        f.debug_struct("PdfFont")
            .field("kind", &self.kind())
            .field("glyph_count", &self.glyph_count())
            .field("codes", &self.codes())
            .field("descriptor", &self.descriptor())
            .finish_non_exhaustive()
    }
}
