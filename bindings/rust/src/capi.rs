//! What the package `subsetter-capi` (`bindings/capi`) calls, which has C's interface: coordinates in 65536ths, glyphs in
//! place of a mapper, a limit of no tokens, and an answer wherever memory is refused. It is no part of the crate's interface,
//! and changes with that package.

pub mod pdf;

use crate::library::{lists, refused, ERRORS};
use crate::proved::cid_embed::{embed_with_options, mapper_for};
use crate::proved::cid_embed_at::{embed_with_variations_and_options, mapper_at};
use crate::proved::font_reasons::{self as reasons, Call, Reason};
use crate::proved::subsetter::{self as proved, subset_with_options};
use crate::proved::subsetter_variable::{check_opening_at, subset_with_variations_and_options};
use crate::rattle::alloc::Global;
use crate::{Embedded, Error};
use ::alloc::string::String;
use ::alloc::vec::Vec;
use core::fmt::Write;

/// All that a caller of C can choose.
#[derive(Clone, Copy)]
pub struct Choices(proved::Options);

impl Choices {
    /// At most `tokens` tokens (also none at all) and this depth; all is kept, and the font has no bound. None where the
    /// depth is 0.
    pub fn new(tokens: u32, depth: u8) -> Option<Self> {
        let limits = proved::Limits::new(tokens, depth)?;
        let extras = proved::Extras {
            hinting: true,
            names: true,
            glyph_names: true,
        };
        Some(Self(proved::Options { limits, extras }))
    }

    /// The same, with a bound on the bytes of the new font.
    #[must_use]
    pub fn with_bytes(mut self, bytes: u32) -> Self {
        self.0.limits = self.0.limits.with_bytes(bytes);
        self
    }

    /// The same, where hinting, font names and glyph names are kept or not.
    #[must_use]
    pub fn keeping(mut self, hinting: bool, names: bool, glyph_names: bool) -> Self {
        self.0.extras = proved::Extras {
            hinting,
            names,
            glyph_names,
        };
        self
    }
}

/// A value on an axis of a variable font.
#[derive(Debug, Copy, Clone, Eq, PartialEq)]
#[repr(C)]
pub struct Coordinate {
    /// The tag of the axis: its four bytes, the first in the highest bits.
    pub tag: u32,
    /// The value, in 65536ths.
    pub value: i32,
}

/// A mapper of glyph 0 and these glyphs, in their order, each once.
fn mapper(
    data: &[u8],
    index: u32,
    glyphs: &[u16],
    choices: &Choices,
) -> Result<proved::GlyphRemapper, Error> {
    mapper_for(Global, data, index, glyphs, choices.0.extras).map_err(refused)
}

/// A coordinate as the proved calls take it.
fn setting(it: &Coordinate) -> (proved::Tag, i32) {
    (proved::Tag::new(&it.tag.to_be_bytes()), it.value)
}

/// Coordinates as the proved calls take them. For a font that can't be opened its fault is returned, whatever memory there is.
fn settings(
    data: &[u8],
    index: u32,
    coordinates: &[Coordinate],
    choices: &Choices,
) -> Result<Vec<(proved::Tag, i32)>, Error> {
    let mut taken = Vec::new();
    if taken.try_reserve_exact(coordinates.len()).is_err() {
        check_opening_at(data, index, choices.0.extras).map_err(refused)?;
        return Err(Error::OutOfMemory);
    }
    taken.extend(coordinates.iter().map(setting));
    Ok(taken)
}

/// The subset of a font.
///
/// # Errors
///
/// Those of [`subset_with_options`](crate::subset_with_options); [`Error::OverflowError`] where all glyphs above 0 are given.
pub fn subset(
    data: &[u8],
    index: u32,
    glyphs: &[u16],
    choices: &Choices,
) -> Result<Vec<u8>, Error> {
    let mapper = mapper(data, index, glyphs, choices)?;
    let made = subset_with_options(Global, data, index, &mapper, &choices.0);
    Ok(made.map_err(refused)?.into_inner())
}

/// The subset of a font at coordinates.
///
/// # Errors
///
/// Those of [`subset`], and those of [`subset_with_variations`](crate::subset_with_variations).
pub fn subset_at(
    data: &[u8],
    index: u32,
    coordinates: &[Coordinate],
    glyphs: &[u16],
    choices: &Choices,
) -> Result<Vec<u8>, Error> {
    let at = settings(data, index, coordinates, choices)?;
    let mapper = mapper_at(Global, data, index, glyphs, choices.0.extras).map_err(refused)?;
    let subset = subset_with_variations_and_options;
    let made = subset(Global, data, index, &at, &mapper, &choices.0);
    Ok(made.map_err(refused)?.into_inner())
}

/// The subset of a font with CIDs and widths.
///
/// # Errors
///
/// Those of [`subset`]; [`Error::MalformedFont`] where the font has no `hmtx` or no `head`, or 0 units per em.
pub fn embed(
    data: &[u8],
    index: u32,
    glyphs: &[u16],
    choices: &Choices,
) -> Result<Embedded, Error> {
    let made = embed_with_options(Global, data, index, glyphs, &choices.0);
    Ok(lists(made.map_err(refused)?))
}

/// The subset of a font with CIDs and widths, at coordinates.
///
/// # Errors
///
/// Those of [`embed`] and of [`subset_at`].
pub fn embed_at(
    data: &[u8],
    index: u32,
    coordinates: &[Coordinate],
    glyphs: &[u16],
    choices: &Choices,
) -> Result<Embedded, Error> {
    let at = settings(data, index, coordinates, choices)?;
    let made = embed_with_variations_and_options(Global, data, index, &at, glyphs, &choices.0);
    Ok(lists(made.map_err(refused)?))
}

/// The calls by their numbers in `subsetter.h`.
const CALLS: [Call; 7] = [
    Call::Subset,
    Call::SubsetAt,
    Call::Embed,
    Call::EmbedAt,
    Call::PdfFont,
    Call::GlyphsOf,
    Call::Advances,
];

/// More bytes than a reason has.
const ROOM: usize = 128;

/// The text of a reason; an empty one of none.
fn text(reason: Option<Reason>) -> Result<String, Error> {
    let mut text = String::new();
    let reserved = text.try_reserve_exact(ROOM);
    reserved.map_err(|_| Error::OutOfMemory)?;
    if let Some(reason) = reason {
        let _ = write!(text, "{reason}");
    }
    Ok(text)
}

/// The text of why a call was refused with a status, both by their numbers in `subsetter.h`; an empty one where the font doesn't show
/// it. None of an unknown call.
///
/// # Errors
///
/// [`Error::OutOfMemory`] alone.
pub fn explain(
    call: u32,
    status: u32,
    data: &[u8],
    index: u32,
    coordinates: &[Coordinate],
    glyphs: &[u16],
    choices: &Choices,
) -> Option<Result<String, Error>> {
    let call = *CALLS.get(call as usize)?;
    // (a missing table is a malformed font there, and no outlines are an unknown kind)
    let place = match status {
        1..=6 => status as usize,
        11 => return Some(text(reasons::find_prohibition(data, index))),
        13 => 2,
        14 => 1,
        _ => return Some(text(None)),
    };
    let mut settings = Vec::new();
    if settings.try_reserve_exact(coordinates.len()).is_err() {
        return Some(Err(Error::OutOfMemory));
    }
    settings.extend(coordinates.iter().map(setting));
    let asked = reasons::Asked {
        call,
        error: ERRORS[place - 1],
        index,
        glyphs,
        coordinates: &settings,
        extras: choices.0.extras,
        limits: choices.0.limits,
        most_bytes: choices.0.limits.bytes(),
    };
    let reason = reasons::explain(Global, data, &asked);
    Some(reason.map_err(refused).and_then(text))
}
