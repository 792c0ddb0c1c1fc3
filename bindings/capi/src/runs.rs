//! The calls of the header's struct `subsetter_text`.

use crate::buffers::list;
use crate::calls::guarded;
use crate::fonts_for_pdf::{hand, status_of_refusal, ObjectsMade};
use crate::making::List;
use crate::options::{font_choices, makes_own};
use crate::status::{status_of, INVALID_TEXT, OVERFULL, UNKNOWN_OPTION};
use crate::whole_fonts::{copied, hand_font, FontMade};
use fonts::capi::pdf::{show_items, show_shaped, text_font, text_lists, Entries};
use fonts::capi::pdf::{GlyphMetrics, RunError, Shaped, ShownLists, TextItem, TextOwn, TextPair, TextPart};
use fonts::capi::pdf::{TextView, Units};
use fonts::capi::Coordinate;
use fonts::Error;
use std::ffi::c_void;
use std::mem::{replace, size_of};

/// A text, which the caller reads, and gives back by `subsetter_free_text`. It borrows the font.
#[derive(Clone, Copy)]
#[repr(C)]
pub struct TextMade {
    /// The size of the struct, by which the caller says which it has.
    size: u32,
    units_per_em: u32,
    font: List<u8>,
    coordinates: List<Coordinate>,
    metrics: List<GlyphMetrics>,
    inked: List<bool>,
    pairs: List<TextPair>,
    index: u32,
    is_vertical: u32,
    advances: List<u16>,
    partable: List<bool>,
    own: List<TextOwn>,
    parts: List<TextPart>,
    most_parts: u32,
    is_still: u32,
}

/// The one size that is known.
const SIZE: u32 = size_of::<TextMade>() as u32;

impl TextMade {
    /// Nothing.
    fn nothing() -> Self {
        Self {
            size: SIZE,
            units_per_em: 0,
            font: List::NONE,
            coordinates: List::NONE,
            metrics: List::NONE,
            inked: List::NONE,
            pairs: List::NONE,
            index: 0,
            is_vertical: 0,
            advances: List::NONE,
            partable: List::NONE,
            own: List::NONE,
            parts: List::NONE,
            most_parts: 0,
            is_still: 0,
        }
    }

    /// The text of a font, by the words of its options.
    fn by_words(font: &[u8], index: u32, at: &[Coordinate], words: &[u32]) -> Result<Self, u32> {
        let choices = font_choices(words).ok_or(UNKNOWN_OPTION)?;
        let makes = makes_own(words);
        let found = text_lists(font, index, at, &choices, makes).map_err(status_of)?;
        let coordinates = copied(at)?;
        Ok(Self {
            size: SIZE,
            units_per_em: u32::from(found.units_per_em),
            font: List::borrowed(font),
            coordinates: List::of(coordinates),
            metrics: List::of(found.metrics),
            inked: List::of(found.inked),
            pairs: List::NONE,
            index,
            is_vertical: u32::from(found.is_vertical),
            advances: List::of(found.advances),
            partable: List::of(found.partable),
            own: List::NONE,
            parts: List::NONE,
            most_parts: u32::from(found.most_parts),
            is_still: u32::from(found.is_still),
        })
    }

    /// What a run needs of it; none where there is no text.
    ///
    /// # Safety
    ///
    /// Its lists were handed over by this module, and aren't given back as long as they are used.
    unsafe fn view<'a>(&self) -> Option<TextView<'a>> {
        let units = u16::try_from(self.units_per_em).ok();
        let units_per_em = units.filter(|it| *it != 0 && self.size == SIZE)?;
        let most_parts = u16::try_from(self.most_parts).ok()?;
        unsafe {
            Some(TextView {
                units_per_em,
                metrics: self.metrics.items(),
                inked: self.inked.items(),
                pairs: self.pairs.items(),
                advances: self.advances.items(),
                partable: self.partable.items(),
                own: self.own.items(),
                parts: self.parts.items(),
                most_parts,
                is_still: self.is_still != 0,
            })
        }
    }

    /// Whether a direction is one of it, and an order is known.
    fn has(&self, direction: u32, order: u32) -> bool {
        let is_its_own = if self.is_vertical == 0 {
            direction < 2
        } else {
            direction == 2
        };
        is_its_own && order < 2
    }
}

/// The number of a refusal.
fn status_of_run(error: RunError) -> u32 {
    match error {
        RunError::InvalidText => INVALID_TEXT,
        RunError::Overfull => OVERFULL,
        RunError::OutOfMemory => status_of(Error::OutOfMemory),
    }
}

/// Hands a run over, and gives the text its pairs and own glyphs: the status.
///
/// # Safety
///
/// What the header requires of a caller.
unsafe fn hand_run(
    text: *mut TextMade,
    made: *mut ObjectsMade,
    direction: u32,
    order: u32,
    show: impl FnOnce(TextView<'_>) -> Result<ShownLists, u32>,
) -> u32 {
    let it = unsafe { *text };
    let view = unsafe { it.view() }.filter(|_| it.has(direction, order));
    let mut lists = (it.pairs, it.own, it.parts);
    let answer = guarded(|| {
        let new = show(view.ok_or(UNKNOWN_OPTION)?)?;
        lists = (List::of(new.pairs), List::of(new.own), List::of(new.parts));
        Ok(ObjectsMade::bytes(new.operators))
    });
    let is_done = answer.is_ok();
    let status = unsafe { hand(answer, ObjectsMade::NOTHING, made) };
    if is_done {
        let (pairs, own, parts) = lists;
        unsafe {
            replace(&mut (*text).pairs, pairs).give_back();
            replace(&mut (*text).own, own).give_back();
            replace(&mut (*text).parts, parts).give_back();
        }
    }
    status
}

/// See `subsetter.h`.
///
/// # Safety
///
/// What the header requires of a caller.
#[no_mangle]
pub unsafe extern "C" fn subsetter_new_text_by_words(
    font: *const u8,
    font_size: usize,
    index: u32,
    coordinates: *const Coordinate,
    coordinate_count: usize,
    options: *const u32,
    option_count: usize,
    made: *mut TextMade,
) -> u32 {
    if unsafe { (*made).size } != SIZE {
        return UNKNOWN_OPTION;
    }
    let font = unsafe { list(font, font_size) };
    let at = unsafe { list(coordinates, coordinate_count) };
    let words = unsafe { list(options, option_count) };
    let answer = guarded(|| TextMade::by_words(font, index, at, words));
    unsafe { hand(answer, TextMade::nothing(), made) }
}

/// See `subsetter.h`.
///
/// # Safety
///
/// What the header requires of a caller.
#[no_mangle]
pub unsafe extern "C" fn subsetter_free_text(text: *mut TextMade) {
    if text.is_null() {
        return;
    }
    unsafe {
        let size = (*text).size;
        let it = replace(&mut *text, TextMade::nothing());
        (*text).size = size;
        it.coordinates.give_back();
        it.metrics.give_back();
        it.inked.give_back();
        it.pairs.give_back();
        it.advances.give_back();
        it.partable.give_back();
        it.own.give_back();
        it.parts.give_back();
    }
}

/// See `subsetter.h`.
///
/// # Safety
///
/// What the header requires of a caller.
#[no_mangle]
pub unsafe extern "C" fn subsetter_show_run(
    text: *mut TextMade,
    items: *const TextItem,
    item_count: usize,
    characters: *const u32,
    character_count: usize,
    direction: u32,
    order: u32,
    size: u32,
    made: *mut ObjectsMade,
) -> u32 {
    let items = unsafe { list(items, item_count) };
    let characters = unsafe { list(characters, character_count) };
    let show = |view: TextView<'_>| {
        show_items(view, items, characters, direction, order, size).map_err(status_of_run)
    };
    unsafe { hand_run(text, made, direction, order, show) }
}

/// See `subsetter.h`.
///
/// # Safety
///
/// What the header requires of a caller.
#[no_mangle]
pub unsafe extern "C" fn subsetter_show_shaped(
    text: *mut TextMade,
    glyphs: *const Shaped,
    glyph_count: usize,
    units: *const c_void,
    unit_count: usize,
    unit_width: u32,
    direction: u32,
    order: u32,
    size: u32,
    made: *mut ObjectsMade,
) -> u32 {
    let glyphs = unsafe { list(glyphs, glyph_count) };
    let units = unsafe {
        match unit_width {
            8 => Some(Units::Utf8(list(units.cast(), unit_count))),
            16 => Some(Units::Utf16(list(units.cast(), unit_count))),
            32 => Some(Units::Utf32(list(units.cast(), unit_count))),
            _ => None,
        }
    };
    let show = |view: TextView<'_>| {
        let units = units.ok_or(UNKNOWN_OPTION)?;
        show_shaped(view, glyphs, units, direction, order, size).map_err(status_of_run)
    };
    unsafe { hand_run(text, made, direction, order, show) }
}

/// See `subsetter.h`.
///
/// # Safety
///
/// What the header requires of a caller.
#[no_mangle]
pub unsafe extern "C" fn subsetter_make_text_font_by_words(
    text: *const TextMade,
    options: *const u32,
    option_count: usize,
    made: *mut FontMade,
) -> u32 {
    let it = unsafe { *text };
    let view = unsafe { it.view() };
    let (font, at) = unsafe { (it.font.items(), it.coordinates.items()) };
    let words = unsafe { list(options, option_count) };
    let call = || {
        let view = view.ok_or(UNKNOWN_OPTION)?;
        let choices = font_choices(words).ok_or(UNKNOWN_OPTION)?;
        let parts = text_font(font, it.index, at, view, it.is_vertical != 0, &choices);
        let (lists, numbers) = parts.map_err(status_of_refusal)?;
        FontMade::of(lists, numbers, Entries::NONE)
    };
    unsafe { hand_font(call, made) }
}
