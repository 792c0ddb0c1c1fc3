//! Which pictures a font has of its glyphs.

use super::{with_room, Shown};
use crate::proved::glyph_kinds as proved;
use crate::rattle::alloc::Global;
use crate::{library, Error};
use alloc::vec::Vec;
use core::fmt;

/// A kind of picture that a font can have of a glyph, in the order in which a reader of OpenType prefers them.
#[derive(Debug, Copy, Clone, Eq, PartialEq, Ord, PartialOrd, Hash)]
#[non_exhaustive]
pub enum GlyphKind {
    /// A paint of `COLR` version 1.
    Colr1,
    /// Layers of `COLR` version 0.
    Colr0,
    /// A document of `SVG `.
    Svg,
    /// An image of `CBDT` in format 17: a PNG with small metrics.
    Cbdt17,
    /// An image of `CBDT` in format 18: a PNG with big metrics.
    Cbdt18,
    /// An image of `CBDT` in format 19: a PNG, with metrics in `CBLC`.
    Cbdt19,
    /// An image of `CBDT` in another format.
    CbdtOther,
    /// A graphic of `sbix` of the type `png `.
    SbixPng,
    /// A graphic of `sbix` of the type `jpg `.
    SbixJpg,
    /// A graphic of `sbix` of the type `tiff`.
    SbixTiff,
    /// A graphic of `sbix` of the type `pdf `.
    SbixPdf,
    /// A graphic of `sbix` of the type `mask`.
    SbixMask,
    /// A graphic of `sbix` of the type `dupe`: that of another glyph.
    SbixDupe,
    /// A graphic of `sbix` of another type.
    SbixOther,
    /// An image of `EBDT`.
    Ebdt,
    /// An outline.
    Outline,
    /// No outline, or an empty one.
    Empty,
}

/// The kinds, by their bits.
const KINDS: [GlyphKind; 17] = [
    GlyphKind::Colr1,
    GlyphKind::Colr0,
    GlyphKind::Svg,
    GlyphKind::Cbdt17,
    GlyphKind::Cbdt18,
    GlyphKind::Cbdt19,
    GlyphKind::CbdtOther,
    GlyphKind::SbixPng,
    GlyphKind::SbixJpg,
    GlyphKind::SbixTiff,
    GlyphKind::SbixPdf,
    GlyphKind::SbixMask,
    GlyphKind::SbixDupe,
    GlyphKind::SbixOther,
    GlyphKind::Ebdt,
    GlyphKind::Outline,
    GlyphKind::Empty,
];

/// Its name, as Python and JavaScript have it.
impl fmt::Display for GlyphKind {
    fn fmt(&self, f: &mut fmt::Formatter<'_>) -> fmt::Result {
        f.write_str(match self {
            Self::Colr1 => "colr1",
            Self::Colr0 => "colr0",
            Self::Svg => "svg",
            Self::Cbdt17 => "cbdt17",
            Self::Cbdt18 => "cbdt18",
            Self::Cbdt19 => "cbdt19",
            Self::CbdtOther => "cbdt",
            Self::SbixPng => "sbix-png",
            Self::SbixJpg => "sbix-jpg",
            Self::SbixTiff => "sbix-tiff",
            Self::SbixPdf => "sbix-pdf",
            Self::SbixMask => "sbix-mask",
            Self::SbixDupe => "sbix-dupe",
            Self::SbixOther => "sbix",
            Self::Ebdt => "ebdt",
            Self::Outline => "outline",
            Self::Empty => "empty",
        })
    }
}

/// All kinds of pictures of a glyph: what [`kinds_of`] returns. The last is `Outline` or `Empty`.
#[derive(Debug, Copy, Clone, Eq, PartialEq, Hash)]
pub struct GlyphKinds(u32);

impl GlyphKinds {
    /// The kinds, in the order in which a reader of OpenType prefers them.
    pub fn iter(self) -> impl Iterator<Item = GlyphKind> {
        KINDS.iter().copied().filter(move |it| self.has(*it))
    }

    /// Whether it has a picture of a kind.
    pub fn has(self, kind: GlyphKind) -> bool {
        self.0 & (1 << kind as u32) != 0
    }

    /// Whether its outline is empty while it has another picture: what a PDF shows of it is blank.
    pub fn is_unseen(self) -> bool {
        self.has(GlyphKind::Empty) && self.0 != 1 << GlyphKind::Empty as u32
    }

    /// A bit for each kind, from the lowest on, as C has them.
    pub fn bits(self) -> u32 {
        self.0
    }
}

/// All kinds of pictures that a font has of each of these glyphs. A font without outlines will do.
///
/// A picture is what a table lists; whether it can be drawn isn't looked at. A table that is cut or wrong lists none, and neither
/// does one for a glyph that the font doesn't have. Outlines are those of `glyf`, else of `CFF `, else of `CFF2`: one has no
/// contours, or a charstring that is endchar alone, with or without a width, where it is `Empty`.
///
/// ```
/// use subsetter::pdf::{kinds_of, GlyphKind};
///
/// # fn main() -> Result<(), subsetter::Error> {
/// # let data = include_bytes!("../../tests/data/made.ttf");
/// let kinds = kinds_of(data, 0, &[1])?;
/// assert!(kinds[0].iter().eq([GlyphKind::Outline]));
/// assert!(!kinds[0].is_unseen());
/// # Ok(())
/// # }
/// ```
///
/// # Errors
///
/// [`Error::UnknownKind`]: it is no font; [`Error::MalformedFont`]: its directory is cut, or it has no such face;
/// [`Error::OutOfMemory`].
pub fn kinds_of(data: &[u8], index: u32, glyphs: &[u16]) -> Result<Vec<GlyphKinds>, Error> {
    let found = proved::kinds_of(Global, data, index, glyphs).map_err(library::refused)?;
    let mut kinds = with_room(found.len())?;
    kinds.extend(found.iter().copied().map(GlyphKinds));
    Ok(kinds)
}

/// The places of the entries that are unseen.
pub(super) fn unseen(data: &[u8], index: u32, shown: &[Shown<'_>]) -> Result<Vec<usize>, Error> {
    let mut glyphs = with_room(shown.len())?;
    glyphs.extend(shown.iter().map(|it| it.glyph));
    let kinds = kinds_of(data, index, &glyphs)?;
    let found = || kinds.iter().enumerate().filter(|(_, it)| it.is_unseen());
    let mut places = with_room(found().count())?;
    places.extend(found().map(|(place, _)| place));
    Ok(places)
}
