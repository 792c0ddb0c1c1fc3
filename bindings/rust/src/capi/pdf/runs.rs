//! Runs of text, as C has them.

use super::{parted, FontChoices, FontLists, FontNumbers, Refusal};
use crate::capi::{settings, Choices, Coordinate};
use crate::library::refused;
use crate::pdf::FontError;
use crate::proved::own_choice::own_choice;
use crate::proved::pdf_figures::Choice;
use crate::proved::pdf_font::Direction;
use crate::proved::pdf_operators::{Font, Order};
use crate::proved::pdf_runs::Direction as RunDirection;
use crate::proved::pdf_text_font::text_font as proved_font;
use crate::proved::subsetter_text_c as proved;
use crate::proved::text_metrics::{column_metrics, text_metrics};
use crate::rattle::alloc::Global;
use crate::Error;
use ::alloc::vec::Vec;

pub use crate::proved::pdf_operators::GlyphMetrics;
pub use crate::proved::subsetter_text_c::{RunError, Shaped, TextItem, TextOwn, TextPair, TextPart};
pub use crate::proved::subsetter_text_c::Units;

/// What a text keeps of its font.
pub struct TextLists {
    /// unitsPerEm.
    pub units_per_em: u16,
    /// The metrics of each glyph.
    pub metrics: Vec<GlyphMetrics>,
    /// Of each glyph whether it has ink.
    pub inked: Vec<bool>,
    /// Whether its runs go from top to bottom.
    pub is_vertical: bool,
    /// The advance of each glyph, where own glyphs are made.
    pub advances: Vec<u16>,
    /// Of each glyph whether it can be a part of an own one.
    pub partable: Vec<bool>,
    /// How many parts an own glyph can have.
    pub most_parts: u16,
    /// Whether these stay at the origin.
    pub is_still: bool,
}

/// A copy of a list.
fn copy_of<T: Copy>(items: &[T]) -> Result<Vec<T>, Error> {
    let mut copy = super::with_room(items.len())?;
    copy.extend_from_slice(items);
    Ok(copy)
}

/// Coordinates as the proved calls take them.
fn at(
    data: &[u8],
    index: u32,
    coordinates: &[Coordinate],
) -> Result<Vec<(crate::proved::subsetter::Tag, i32)>, Error> {
    let open = Choices::new(1, 1).ok_or(Error::OutOfMemory)?;
    settings(data, index, coordinates, &open)
}

/// What a text of a font keeps.
///
/// # Errors
///
/// Those of [`Text::new`](crate::pdf::Text::new).
pub fn text_lists(
    data: &[u8],
    index: u32,
    coordinates: &[Coordinate],
    choices: &FontChoices,
    makes_own: bool,
) -> Result<TextLists, Error> {
    let at = at(data, index, coordinates)?;
    let is_vertical = choices.0.direction == Direction::Vertical;
    if makes_own && !is_vertical {
        let found = own_choice(Global, data, index, &at, &choices.0.limits).map_err(refused)?;
        let (font, choice) = (found.font(), found.choice());
        return Ok(TextLists {
            units_per_em: font.units,
            metrics: copy_of(font.metrics)?,
            inked: copy_of(font.inked)?,
            is_vertical,
            advances: copy_of(choice.advances)?,
            partable: copy_of(choice.can_be_part)?,
            most_parts: choice.most_parts,
            is_still: choice.is_still,
        });
    }
    let found = if is_vertical {
        column_metrics(Global, data, index, &at, &choices.0.limits)
    } else {
        text_metrics(Global, data, index, &at, &choices.0.limits)
    };
    let found = found.map_err(refused)?;
    let font = found.font();
    Ok(TextLists {
        units_per_em: font.units,
        metrics: copy_of(font.metrics)?,
        inked: copy_of(font.inked)?,
        is_vertical,
        advances: Vec::new(),
        partable: Vec::new(),
        most_parts: 0,
        is_still: false,
    })
}

/// A text as C holds it.
#[derive(Clone, Copy)]
pub struct TextView<'a> {
    /// unitsPerEm, which isn't 0.
    pub units_per_em: u16,
    /// The metrics of each glyph.
    pub metrics: &'a [GlyphMetrics],
    /// Of each glyph whether it has ink.
    pub inked: &'a [bool],
    /// What each code from 1 on draws and says.
    pub pairs: &'a [TextPair],
    /// The advance of each glyph.
    pub advances: &'a [u16],
    /// Of each glyph whether it can be a part of an own one.
    pub partable: &'a [bool],
    /// The own glyphs.
    pub own: &'a [TextOwn],
    /// Their parts, one after the other.
    pub parts: &'a [TextPart],
    /// How many parts an own glyph can have.
    pub most_parts: u16,
    /// Whether these stay at the origin.
    pub is_still: bool,
}

impl<'a> TextView<'a> {
    fn font(&self) -> Font<'a> {
        Font {
            units: self.units_per_em,
            metrics: self.metrics,
            inked: self.inked,
        }
    }

    fn choice(&self) -> Choice<'a> {
        Choice {
            units: self.units_per_em,
            advances: self.advances,
            inked: self.inked,
            can_be_part: self.partable,
            most_parts: self.most_parts,
            is_still: self.is_still,
        }
    }

    fn kept(&self) -> proved::Kept<'a> {
        proved::Kept {
            pairs: self.pairs,
            own: self.own,
            parts: self.parts,
        }
    }
}

/// The direction and the order of their numbers.
fn chosen(direction: u32, order: u32) -> (RunDirection, Order) {
    let direction = match direction {
        0 => RunDirection::LeftToRight,
        1 => RunDirection::RightToLeft,
        _ => RunDirection::TopToBottom,
    };
    let order = if order == 0 {
        Order::Visual
    } else {
        Order::Logical
    };
    (direction, order)
}

/// The operators of a run, and the lists of the text then.
pub struct ShownLists {
    /// The operators.
    pub operators: Vec<u8>,
    /// What each code from 1 on draws and says.
    pub pairs: Vec<TextPair>,
    /// The own glyphs.
    pub own: Vec<TextOwn>,
    /// Their parts.
    pub parts: Vec<TextPart>,
}

fn taken(shown: proved::ShownRun) -> ShownLists {
    ShownLists {
        operators: shown.operators.into_inner(),
        pairs: shown.pairs.into_inner(),
        own: shown.own.into_inner(),
        parts: shown.parts.into_inner(),
    }
}

/// Shows a run of items, whose texts are ranges of the characters.
///
/// # Errors
///
/// Those of the type.
pub fn show_items(
    text: TextView<'_>,
    items: &[TextItem],
    characters: &[u32],
    direction: u32,
    order: u32,
    size: u32,
) -> Result<ShownLists, RunError> {
    let (way, order) = chosen(direction, order);
    let (font, choice, kept) = (text.font(), text.choice(), text.kept());
    proved::show_items(
        Global, font, &choice, kept, items, characters, way, order, size,
    )
    .map(taken)
}

/// Shows a run of glyphs with cluster numbers, which count the units.
///
/// # Errors
///
/// Those of the type.
pub fn show_shaped(
    text: TextView<'_>,
    glyphs: &[Shaped],
    units: Units<'_>,
    direction: u32,
    order: u32,
    size: u32,
) -> Result<ShownLists, RunError> {
    let (way, order) = chosen(direction, order);
    let (font, choice, kept) = (text.font(), text.choice(), text.kept());
    proved::show_shaped(
        Global, font, &choice, kept, glyphs, units, way, order, size,
    )
    .map(taken)
}

/// All that a PDF has of the font of a text.
///
/// # Errors
///
/// Those of [`Text::font`](crate::pdf::Text::font).
pub fn text_font(
    data: &[u8],
    index: u32,
    coordinates: &[Coordinate],
    text: TextView<'_>,
    is_vertical: bool,
    choices: &FontChoices,
) -> Result<(FontLists, FontNumbers), Refusal> {
    let at = at(data, index, coordinates)?;
    let pairs = proved::pairs_of(Global, text.pairs).map_err(|error| match error {
        RunError::OutOfMemory => Error::OutOfMemory,
        _ => Error::OverflowError,
    })?;
    let own = proved::own_of(Global, text.own, text.parts).map_err(|error| match error {
        RunError::InvalidText => Refusal::Text,
        _ => Refusal::from(Error::OutOfMemory),
    })?;
    let count = if text.own.is_empty() {
        65_536
    } else {
        text.metrics.len()
    };
    let mut options = choices.0;
    options.direction = if is_vertical {
        Direction::Vertical
    } else {
        Direction::Horizontal
    };
    let made = proved_font(Global, data, index, &at, &pairs, count, &own, &options);
    let made = made.map_err(|error| Refusal::Font(FontError::of(error)))?;
    let (mut lists, numbers) = parted(made.font)?;
    lists.cid_to_gid_map = made
        .cid_to_gid_map
        .map_or_else(Vec::new, |it| it.into_inner());
    Ok((lists, numbers))
}
