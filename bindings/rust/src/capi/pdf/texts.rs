//! Codes without a font, and the entries of a text.

use super::{with_room, Entries, EntryError, Refusal};
use crate::library::refused;
use crate::pdf::glyphs_by_cmap;
use crate::proved::pdf_codes as proved;
use crate::rattle::alloc::Global;
use ::alloc::vec::Vec;

/// How glyphs get codes: 0 consecutive, 1 source, 2 one for each text.
pub(super) fn codes_chosen(word: u32) -> Option<proved::Codes> {
    match word {
        0 => Some(proved::Codes::Consecutive),
        1 => Some(proved::Codes::Source),
        2 => Some(proved::Codes::EachText),
        _ => None,
    }
}

/// The code of each entry. None where the kind of codes isn't known.
///
/// # Errors
///
/// Those of [`codes_of`](crate::pdf::codes_of), and first of all a text that isn't one.
pub fn codes_of(entries: Entries<'_>, kind: u32) -> Option<Result<Vec<u16>, Refusal>> {
    let kind = codes_chosen(kind)?;
    let found = |entries: Entries<'_>| -> Result<Vec<u16>, Refusal> {
        let characters = entries.characters()?;
        let shown = entries.shown(&characters)?;
        let codes = proved::codes_of(Global, &shown, kind).map_err(refused)?;
        Ok(codes.into_inner())
    };
    Some(found(entries))
}

/// The entries of a text: each character has a glyph, and is the text of it.
pub struct TextEntries {
    /// The glyph of each character.
    pub glyphs: Vec<u16>,
    /// The characters.
    pub text: Vec<u32>,
    /// 1, 2, 3 and so on.
    pub ends: Vec<usize>,
}

impl TextEntries {
    /// Those of a text in UTF-8.
    ///
    /// # Errors
    ///
    /// Those of [`glyphs_of`](crate::pdf::glyphs_of), and first of all that it isn't UTF-8.
    pub fn of_utf8(data: &[u8], index: u32, text: &[u8]) -> Result<Self, Refusal> {
        let text = core::str::from_utf8(text).map_err(|_| EntryError::Text)?;
        let found = glyphs_by_cmap(data, index, text.chars())?;
        let count = text.chars().count();
        let (mut glyphs, mut characters) = (with_room(count)?, with_room(count)?);
        let mut ends = with_room(count)?;
        glyphs.extend(found);
        characters.extend(text.chars().map(u32::from));
        ends.extend(1..=count);
        Ok(Self {
            glyphs,
            text: characters,
            ends,
        })
    }

    /// They as the calls take them.
    pub fn entries(&self) -> Entries<'_> {
        Entries {
            glyphs: &self.glyphs,
            text: &self.text,
            ends: &self.ends,
        }
    }
}
