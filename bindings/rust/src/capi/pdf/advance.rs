//! What is known of glyphs before anything is embedded: advances at coordinates in 65536ths, and kinds of pictures.

use crate::capi::{settings, Choices, Coordinate};
use crate::library::refused;
use crate::pdf::Advances;
use crate::proved::font_advances as proved;
use crate::proved::glyph_kinds;
use crate::rattle::alloc::Global;
use crate::Error;
use ::alloc::vec::Vec;

/// The advances of glyphs. Of the choices the tokens count alone.
///
/// # Errors
///
/// Those of [`advances`](crate::pdf::advances).
pub fn advances(
    data: &[u8],
    index: u32,
    coordinates: &[Coordinate],
    glyphs: &[u16],
    choices: &Choices,
) -> Result<Advances, Error> {
    let at = settings(data, index, coordinates, choices)?;
    let found = proved::advances(Global, data, index, glyphs, &at, &choices.0.limits);
    let found = found.map_err(refused)?;
    Ok(Advances {
        units_per_em: found.units_per_em,
        widths: found.widths.into_inner(),
        heights: found.heights.into_inner(),
    })
}

/// A number of each glyph, with a bit for each kind of picture that it has.
///
/// # Errors
///
/// Those of [`kinds_of`](crate::pdf::kinds_of).
pub fn kinds_of(data: &[u8], index: u32, glyphs: &[u16]) -> Result<Vec<u32>, Error> {
    let found = glyph_kinds::kinds_of(Global, data, index, glyphs);
    Ok(found.map_err(refused)?.into_inner())
}
