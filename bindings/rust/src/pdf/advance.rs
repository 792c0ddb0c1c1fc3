//! Advances before anything is embedded.

use crate::proved::font_advances as proved;
use crate::rattle::alloc::Global;
use crate::{library, Error, Limits, Tag};
use alloc::vec::Vec;

/// Advances of glyphs, in the font's units: what [`advances`] returns.
#[derive(Debug, Clone, Eq, PartialEq, Hash)]
pub struct Advances {
    /// How many units the em has, which isn't 0.
    pub units_per_em: u16,
    /// Of each given glyph, in the order given, the advance width.
    pub widths: Vec<u16>,
    /// Of each given glyph the advance height; one em where the font has none.
    pub heights: Vec<u16>,
}

/// The advances of glyphs at coordinates (none: the font's default), exact, in the font's units: what text is laid out by before
/// anything of the font is embedded.
///
/// `data`, `index` and `variation_coordinates` are as for [`embed_with_variations`](crate::embed_with_variations). A width is
/// that of the glyph in the font that this call makes, and of [`PdfFont::exact_widths`](super::PdfFont::exact_widths); a height
/// is that of its column in [`PdfFont::columns`](super::PdfFont::columns), before this is rounded. No glyph is drawn, unless the
/// font has outlines in `glyf` and no `HVAR`, away from its default.
///
/// ```
/// use subsetter::pdf::advances;
/// use subsetter::Tag;
///
/// # fn main() -> Result<(), subsetter::Error> {
/// # let data = include_bytes!("../../tests/data/made_variable.ttf");
/// let found = advances(data, 0, &[1, 5, 1], &[(Tag::new(b"wght"), 650.0)])?;
/// assert_eq!(found.units_per_em, 2048);
/// assert_eq!(found.widths, [1466, 1139, 1466]);
/// assert_eq!(found.heights, [2048; 3]);
/// # Ok(())
/// # }
/// ```
///
/// # Errors
///
/// Those of [`embed_with_variations`](crate::embed_with_variations) that come of opening the font, its coordinates, its metrics
/// and, where they decide, its outlines: [`Error::UnknownKind`], [`Error::MalformedFont`] (a table is missing or cut, a glyph has
/// no metric, unitsPerEm is 0), [`Error::Unimplemented`], [`Error::OverflowError`] and [`Error::OutOfMemory`]. What `fsType`
/// permits isn't asked for.
pub fn advances(
    data: &[u8],
    index: u32,
    glyphs: &[u16],
    variation_coordinates: &[(Tag, f32)],
) -> Result<Advances, Error> {
    let limits = Limits::default();
    advances_with_limits(data, index, glyphs, variation_coordinates, &limits)
}

/// [`advances`] where a glyph may take as many steps as the limits have tokens, for untrusted fonts.
///
/// # Errors
///
/// Those of [`advances`]; a glyph that takes more steps is an [`Error::OverflowError`].
pub fn advances_with_limits(
    data: &[u8],
    index: u32,
    glyphs: &[u16],
    variation_coordinates: &[(Tag, f32)],
    limits: &Limits,
) -> Result<Advances, Error> {
    let coordinates = library::coordinates(variation_coordinates)?;
    let within = library::within(limits);
    let found = proved::advances(Global, data, index, glyphs, &coordinates, &within);
    let found = found.map_err(library::refused)?;
    Ok(Advances {
        units_per_em: found.units_per_em,
        widths: found.widths.into_inner(),
        heights: found.heights.into_inner(),
    })
}
