//! The WebAssembly module of `subsetter.mjs`: the calls of the crate `subsetter` (bindings/rust) on what the loader has put
//! into the memory.
//!
//! What it trusts is what the loader writes: each list has `count` items at its address, and nothing else uses them during the
//! call. A panic ends the instance by a trap, and the loader then takes another.

#![deny(unsafe_op_in_unsafe_fn)]

mod heap;
/// The statuses of the C library.
#[allow(dead_code)]
#[path = "../../capi/src/status.rs"]
mod status;

use fonts::capi::pdf::{self, Column, Entries, FontChoices, FontLists, FontNumbers, FontParts, Refusal};
use fonts::capi::pdf::{GlyphMetrics, RunError, Shaped, ShownLists, TextItem, TextOwn, TextPair, TextPart, TextView, Units};
use fonts::capi::{self, Choices, Coordinate};
use fonts::pdf::{FontError, PartsError};
use fonts::{Embedded, Error};
use status::{
    status_of, status_text, BITMAPS_ALONE, DONE, INVALID_NUMBERS, INVALID_TEXT, NOT_PERMITTED, NO_CMAP, NO_DEPTH, OVERFULL, UNKNOWN_OPTION, VERSION,
};
use std::mem::{replace, take};
use std::slice;

/// A list by its address.
#[repr(C)]
pub struct List<T> {
    at: *const T,
    count: usize,
}

impl<T> List<T> {
    /// Its items.
    ///
    /// # Safety
    ///
    /// `count` items are at the address, and nobody writes them as long as they are used; or `count` is 0.
    unsafe fn items(&self) -> &[T] {
        if self.count == 0 {
            return &[];
        }
        unsafe { slice::from_raw_parts(self.at, self.count) }
    }

    /// A list that stays until the heap begins anew.
    fn of(items: Vec<T>) -> Self {
        let items = items.leak();
        Self {
            at: items.as_ptr(),
            count: items.len(),
        }
    }
}

/// The limits: how many tokens a charstring has, how deep its calls go, and how many bytes the new font (0: any number); and what
/// the new font lacks: 1 hinting, 2 names, 4 glyph names.
fn choices_of(tokens: u32, depth: u32, bytes: u32, drop: u32) -> Result<Choices, u32> {
    let depth = u8::try_from(depth).unwrap_or(0);
    let limited = Choices::new(tokens, depth).ok_or(NO_DEPTH)?;
    let bounded = match bytes {
        0 => limited,
        bytes => limited.with_bytes(bytes),
    };
    Ok(bounded.keeping(drop & 1 == 0, drop & 2 == 0, drop & 4 == 0))
}

/// What a call is given, and after it what it hands over. The loader writes and reads it as words of 32 bits.
#[repr(C)]
pub struct Call {
    font: List<u8>,
    index: u32,
    glyphs: List<u16>,
    coordinates: List<Coordinate>,
    tokens: u32,
    depth: u32,
    bytes: u32,
    drop: u32,
    made: List<u8>,
    cids: List<u16>,
    widths: List<u32>,
}

impl Call {
    fn choices(&self) -> Result<Choices, u32> {
        choices_of(self.tokens, self.depth, self.bytes, self.drop)
    }

    /// Takes a new font over.
    fn subset(&mut self, made: Result<Vec<u8>, Error>) -> Result<(), u32> {
        self.made = List::of(made.map_err(status_of)?);
        Ok(())
    }

    /// Takes a new font over with its CIDs and widths.
    fn embed(&mut self, made: Result<Embedded, Error>) -> Result<(), u32> {
        let Embedded { font, cids, widths } = made.map_err(status_of)?;
        self.made = List::of(font);
        self.cids = List::of(cids);
        self.widths = List::of(widths);
        Ok(())
    }
}

fn status(done: Result<(), u32>) -> u32 {
    done.err().unwrap_or(DONE)
}

/// An export that makes a subset: `capi`'s call of a name, by these lists, and what takes its answer over.
macro_rules! export {
    ($name:ident, $call:ident($($list:ident),*), $take:ident) => {
        #[no_mangle]
        pub unsafe extern "C" fn $name(call: &mut Call) -> u32 {
            status(call.choices().and_then(|choices| {
                let made = unsafe { capi::$call(call.font.items(), call.index, $(call.$list.items(),)* &choices) };
                call.$take(made)
            }))
        }
    };
}

export!(subsetter_subset, subset(glyphs), subset);
export!(subsetter_subset_at, subset_at(coordinates, glyphs), subset);
export!(subsetter_embed, embed(glyphs), embed);
export!(subsetter_embed_at, embed_at(coordinates, glyphs), embed);

// ---- the fonts for a PDF

/// Glyphs in use with their texts, as `subsetter.h` has them.
#[repr(C)]
pub struct EntryLists {
    glyphs: List<u16>,
    text: List<u32>,
    ends: List<usize>,
}

impl EntryLists {
    /// # Safety
    ///
    /// As of `List::items`, for each.
    unsafe fn entries(&self) -> Entries<'_> {
        unsafe {
            Entries {
                glyphs: self.glyphs.items(),
                text: self.text.items(),
                ends: self.ends.items(),
            }
        }
    }
}

/// A font for a PDF.
#[repr(C)]
pub struct PdfMade {
    program: List<u8>,
    cids: List<u16>,
    codes: List<u16>,
    is_said: List<bool>,
    widths: List<u32>,
    columns: List<Column>,
    font_name: List<u8>,
    to_unicode: List<u8>,
    encoding: List<u8>,
    encoding_name: List<u8>,
    cid_set: List<u8>,
    cid_to_gid_map: List<u8>,
    numbers: FontNumbers,
}

impl PdfMade {
    fn of(lists: FontLists, numbers: FontNumbers) -> Self {
        Self {
            program: List::of(lists.program),
            cids: List::of(lists.cids),
            codes: List::of(lists.codes),
            is_said: List::of(lists.is_said),
            widths: List::of(lists.widths),
            columns: List::of(lists.columns),
            font_name: List::of(lists.font_name),
            to_unicode: List::of(lists.to_unicode),
            encoding: List::of(lists.encoding),
            encoding_name: List::of(lists.encoding_name),
            cid_set: List::of(lists.cid_set),
            cid_to_gid_map: List::of(lists.cid_to_gid_map),
            numbers,
        }
    }

    /// # Safety
    ///
    /// As of `List::items`, for each.
    unsafe fn parts(&self) -> FontParts<'_> {
        unsafe {
            FontParts {
                program: self.program.items(),
                cids: self.cids.items(),
                codes: self.codes.items(),
                is_said: self.is_said.items(),
                widths: self.widths.items(),
                columns: self.columns.items(),
                font_name: self.font_name.items(),
                to_unicode: self.to_unicode.items(),
                encoding: self.encoding.items(),
                encoding_name: self.encoding_name.items(),
                cid_set: self.cid_set.items(),
                cid_to_gid_map: self.cid_to_gid_map.items(),
                numbers: self.numbers,
            }
        }
    }
}

/// A call that makes a font for a PDF.
#[repr(C)]
pub struct PdfCall {
    font: List<u8>,
    index: u32,
    coordinates: List<Coordinate>,
    entries: EntryLists,
    chosen: Chosen,
    made: FontMade,
}

/// The choices of a font for a PDF.
#[repr(C)]
pub struct Chosen {
    tokens: u32,
    depth: u32,
    bytes: u32,
    drop: u32,
    /// The words of `subsetter_pdf_options` after those.
    further: [u32; 8],
}

impl Chosen {
    fn choices(&self) -> Result<FontChoices, u32> {
        let limits = choices_of(self.tokens, self.depth, self.bytes, self.drop)?;
        FontChoices::new(&limits, self.further).ok_or(UNKNOWN_OPTION)
    }

    fn is_vertical(&self) -> bool {
        self.further[2] != 0
    }
}

/// A font for a PDF, and what its older struct lacks.
#[repr(C)]
pub struct FontMade {
    font: PdfMade,
    units_per_em: u32,
    exact_widths: List<u16>,
    unknown_axes: List<u32>,
}

impl FontMade {
    fn of(made: Result<(FontLists, FontNumbers), Refusal>) -> Result<Self, u32> {
        let (mut lists, numbers) = made.map_err(status_of_refusal)?;
        Ok(Self {
            units_per_em: u32::from(lists.units_per_em),
            exact_widths: List::of(take(&mut lists.exact_widths)),
            unknown_axes: List::of(take(&mut lists.unknown_axes)),
            font: PdfMade::of(lists, numbers),
        })
    }
}

/// A call that writes of such a font: objects from `number` on, or a sheet of that layout.
#[repr(C)]
pub struct WriteCall {
    font: PdfMade,
    number: u32,
    entries: EntryLists,
    bytes: List<u8>,
    offsets: List<usize>,
}

/// A call that writes runs of text: the operators of all, where those of each end, and how far it goes on.
#[repr(C)]
pub struct TextSheetCall {
    font: PdfMade,
    operators: List<u8>,
    ends: List<usize>,
    advances: List<u32>,
    bytes: List<u8>,
}

/// A call that gives the parts of such a font.
#[repr(C)]
pub struct PartsCall {
    font: PdfMade,
    numbers: List<u32>,
    parts: List<PartMade>,
}

/// A part of a font, as words: `strings` has the start and the end of each string.
#[repr(C)]
pub struct PartMade {
    role: u32,
    number: u32,
    entries: List<u8>,
    strings: List<usize>,
    is_stream: u32,
    stream: List<u8>,
}

/// A call that gives codes.
#[repr(C)]
pub struct CodesCall {
    entries: EntryLists,
    kind: u32,
    codes: List<u16>,
}

/// A call that gives advances.
#[repr(C)]
pub struct AdvancesCall {
    font: List<u8>,
    index: u32,
    coordinates: List<Coordinate>,
    glyphs: List<u16>,
    tokens: u32,
    units_per_em: u32,
    widths: List<u16>,
    heights: List<u16>,
}

/// A call that gives kinds of pictures.
#[repr(C)]
pub struct KindsCall {
    font: List<u8>,
    index: u32,
    glyphs: List<u16>,
    kinds: List<u32>,
}

/// A call that reads a text without shaping.
#[repr(C)]
pub struct ReadCall {
    font: List<u8>,
    index: u32,
    text: List<u32>,
    entries: List<ReadEntry>,
    missing: List<usize>,
}

/// A glyph with the places of its characters.
#[repr(C)]
pub struct ReadEntry {
    glyph: u32,
    start: usize,
    end: usize,
}

fn entries_of(read: &[pdf::Entry]) -> Result<Vec<ReadEntry>, u32> {
    let mut entries = Vec::new();
    entries.try_reserve_exact(read.len()).map_err(|_| status_of(Error::OutOfMemory))?;
    entries.extend(read.iter().map(|it| ReadEntry { glyph: it.glyph.into(), start: it.start, end: it.end }));
    Ok(entries)
}

fn status_of_refusal(refusal: Refusal) -> u32 {
    match refusal {
        Refusal::Text | Refusal::Font(FontError::TextTooLong) => INVALID_TEXT,
        Refusal::Font(FontError::NotPermitted(_)) => NOT_PERMITTED,
        Refusal::Font(FontError::Subset(error)) => status_of(error),
        Refusal::Font(FontError::BitmapsAlone) => BITMAPS_ALONE,
        // (that is `NoCmap`; Rust wants an arm for what may come)
        Refusal::Font(_) => NO_CMAP,
    }
}

/// # Safety
///
/// As of `List::items`.
#[no_mangle]
pub unsafe extern "C" fn subsetter_pdf_font(call: &mut PdfCall) -> u32 {
    let (font, at, entries) = unsafe { (call.font.items(), call.coordinates.items(), call.entries.entries()) };
    let made = call.chosen.choices().and_then(|choices| FontMade::of(pdf::pdf_font(font, call.index, at, entries, &choices)));
    status(made.map(|made| call.made = made))
}

/// # Safety
///
/// As of `List::items`.
#[no_mangle]
pub unsafe extern "C" fn subsetter_pdf_objects(call: &mut WriteCall) -> u32 {
    let made = unsafe { call.font.parts() }.objects(call.number);
    status(made.map_err(status_of).map(|(bytes, offsets)| {
        call.bytes = List::of(bytes);
        call.offsets = List::of(offsets);
    }))
}

/// # Safety
///
/// As of `List::items`.
#[no_mangle]
pub unsafe extern "C" fn subsetter_pdf_sheet(call: &mut WriteCall) -> u32 {
    let (parts, entries) = unsafe { (call.font.parts(), call.entries.entries()) };
    let made = parts.sheet(entries, call.number == 1);
    status(made.map_err(status_of_refusal).map(|bytes| call.bytes = List::of(bytes)))
}

/// # Safety
///
/// As of `List::items`.
#[no_mangle]
pub unsafe extern "C" fn subsetter_parts(call: &mut PartsCall) -> u32 {
    let (parts, numbers) = unsafe { (call.font.parts(), call.numbers.items()) };
    let found = parts.parts(numbers).map_err(|error| match error {
        PartsError::InvalidNumbers => INVALID_NUMBERS,
        PartsError::Subset(error) => status_of(error),
    });
    status(found.map(|parts| {
        let made = parts.into_iter().map(|part| PartMade {
            role: part.role as u32,
            number: part.number,
            strings: List::of(part.strings.iter().flat_map(|it| [it.start, it.end]).collect()),
            is_stream: u32::from(part.stream.is_some()),
            stream: List::of(part.stream.map_or_else(Vec::new, |it| it.into_owned())),
            entries: List::of(part.entries),
        });
        call.parts = List::of(made.collect());
    }))
}

/// # Safety
///
/// As of `List::items`.
#[no_mangle]
pub unsafe extern "C" fn subsetter_codes_of(call: &mut CodesCall) -> u32 {
    let found = pdf::codes_of(unsafe { call.entries.entries() }, call.kind);
    let codes = found.ok_or(UNKNOWN_OPTION).and_then(|codes| codes.map_err(status_of_refusal));
    status(codes.map(|codes| call.codes = List::of(codes)))
}

/// # Safety
///
/// As of `List::items`.
#[no_mangle]
pub unsafe extern "C" fn subsetter_advances(call: &mut AdvancesCall) -> u32 {
    let (font, at, glyphs) = unsafe { (call.font.items(), call.coordinates.items(), call.glyphs.items()) };
    let found = choices_of(call.tokens, 1, 0, 0).and_then(|limits| {
        pdf::advances(font, call.index, at, glyphs, &limits).map_err(status_of)
    });
    status(found.map(|made| {
        call.units_per_em = u32::from(made.units_per_em);
        call.widths = List::of(made.widths);
        call.heights = List::of(made.heights);
    }))
}

/// # Safety
///
/// As of `List::items`.
#[no_mangle]
pub unsafe extern "C" fn subsetter_glyph_kinds(call: &mut KindsCall) -> u32 {
    let (font, glyphs) = unsafe { (call.font.items(), call.glyphs.items()) };
    let found = pdf::kinds_of(font, call.index, glyphs).map_err(status_of);
    status(found.map(|kinds| call.kinds = List::of(kinds)))
}

/// # Safety
///
/// As of `List::items`.
#[no_mangle]
pub unsafe extern "C" fn subsetter_read_text(call: &mut ReadCall) -> u32 {
    let (font, text) = unsafe { (call.font.items(), call.text.items()) };
    let found = pdf::read_text(font, call.index, text);
    status(found.map_err(status_of_refusal).and_then(|read| {
        call.entries = List::of(entries_of(&read.entries)?);
        call.missing = List::of(read.missing);
        Ok(())
    }))
}

// ---- runs of text

/// What runs of text need of a font.
#[repr(C)]
pub struct TextNeeds {
    units_per_em: u32,
    metrics: List<GlyphMetrics>,
    inked: List<bool>,
    advances: List<u16>,
    partable: List<bool>,
    most_parts: u32,
    is_still: u32,
}

/// What codes draw and say, and the own glyphs among it.
#[repr(C)]
pub struct TextKept {
    pairs: List<TextPair>,
    own: List<TextOwn>,
    parts: List<TextPart>,
}

/// A call that makes a text of a font.
#[repr(C)]
pub struct TextCall {
    font: List<u8>,
    index: u32,
    coordinates: List<Coordinate>,
    chosen: Chosen,
    makes_own: u32,
    needs: TextNeeds,
}

/// A call that shows a run of a text, and gives it other lists.
#[repr(C)]
pub struct ShowCall<G, U> {
    needs: TextNeeds,
    kept: TextKept,
    glyphs: List<G>,
    text: List<U>,
    direction: u32,
    order: u32,
    size: u32,
    bytes: List<u8>,
}

/// A call that makes the font of a text.
#[repr(C)]
pub struct TextFontCall {
    font: List<u8>,
    index: u32,
    coordinates: List<Coordinate>,
    needs: TextNeeds,
    kept: TextKept,
    chosen: Chosen,
    made: FontMade,
}

/// # Safety
///
/// As of `List::items`, for each.
unsafe fn view_of<'a>(needs: &'a TextNeeds, kept: &'a TextKept) -> TextView<'a> {
    unsafe {
        TextView {
            units_per_em: needs.units_per_em as u16,
            metrics: needs.metrics.items(),
            inked: needs.inked.items(),
            pairs: kept.pairs.items(),
            advances: needs.advances.items(),
            partable: needs.partable.items(),
            own: kept.own.items(),
            parts: kept.parts.items(),
            most_parts: needs.most_parts as u16,
            is_still: needs.is_still != 0,
        }
    }
}

impl<G, U> ShowCall<G, U> {
    /// Takes a run over.
    fn take(&mut self, shown: Result<ShownLists, RunError>) -> u32 {
        let shown = shown.map_err(|error| match error {
            RunError::InvalidText => INVALID_TEXT,
            RunError::Overfull => OVERFULL,
            RunError::OutOfMemory => status_of(Error::OutOfMemory),
        });
        status(shown.map(|lists| {
            self.bytes = List::of(lists.operators);
            self.kept = TextKept { pairs: List::of(lists.pairs), own: List::of(lists.own), parts: List::of(lists.parts) };
        }))
    }
}

/// # Safety
///
/// As of `List::items`.
#[no_mangle]
pub unsafe extern "C" fn subsetter_new_text(call: &mut TextCall) -> u32 {
    let (font, at) = unsafe { (call.font.items(), call.coordinates.items()) };
    let made = call.chosen.choices().and_then(|choices| {
        pdf::text_lists(font, call.index, at, &choices, call.makes_own != 0).map_err(status_of)
    });
    status(made.map(|made| {
        call.needs = TextNeeds {
            units_per_em: u32::from(made.units_per_em),
            metrics: List::of(made.metrics),
            inked: List::of(made.inked),
            advances: List::of(made.advances),
            partable: List::of(made.partable),
            most_parts: u32::from(made.most_parts),
            is_still: u32::from(made.is_still),
        };
    }))
}

/// # Safety
///
/// As of `List::items`.
#[no_mangle]
pub unsafe extern "C" fn subsetter_show_run(call: &mut ShowCall<TextItem, u32>) -> u32 {
    let (view, items, text) = unsafe { (view_of(&call.needs, &call.kept), call.glyphs.items(), call.text.items()) };
    let shown = pdf::show_items(view, items, text, call.direction, call.order, call.size);
    call.take(shown)
}

/// # Safety
///
/// As of `List::items`.
#[no_mangle]
pub unsafe extern "C" fn subsetter_show_shaped(call: &mut ShowCall<Shaped, u16>) -> u32 {
    let (view, glyphs, text) = unsafe { (view_of(&call.needs, &call.kept), call.glyphs.items(), Units::Utf16(call.text.items())) };
    let shown = pdf::show_shaped(view, glyphs, text, call.direction, call.order, call.size);
    call.take(shown)
}

/// # Safety
///
/// As of `List::items`.
#[no_mangle]
pub unsafe extern "C" fn subsetter_text_font(call: &mut TextFontCall) -> u32 {
    let (font, at, view) = unsafe { (call.font.items(), call.coordinates.items(), view_of(&call.needs, &call.kept)) };
    let made = call.chosen.choices().and_then(|choices| {
        FontMade::of(pdf::text_font(font, call.index, at, view, call.chosen.is_vertical(), &choices))
    });
    status(made.map(|made| call.made = made))
}

/// # Safety
///
/// As of `List::items`; the ends are in order, and among the operators.
#[no_mangle]
pub unsafe extern "C" fn subsetter_text_sheet(call: &mut TextSheetCall) -> u32 {
    let (parts, operators) = unsafe { (call.font.parts(), call.operators.items()) };
    let (ends, advances) = unsafe { (call.ends.items(), call.advances.items()) };
    let mut start = 0;
    let runs = ends.iter().zip(advances).map(|(end, advance)| (&operators[replace(&mut start, *end)..*end], *advance));
    let made = parts.text_sheet(runs);
    status(made.map_err(status_of).map(|bytes| call.bytes = List::of(bytes)))
}

/// A call that says why another was refused.
#[repr(C)]
pub struct ReasonCall {
    call: u32,
    status: u32,
    font: List<u8>,
    index: u32,
    coordinates: List<Coordinate>,
    glyphs: List<u16>,
    tokens: u32,
    depth: u32,
    bytes: u32,
    drop: u32,
    text: List<u8>,
}

/// # Safety
///
/// As of `List::items`.
#[no_mangle]
pub unsafe extern "C" fn subsetter_explain(it: &mut ReasonCall) -> u32 {
    let (font, coordinates, glyphs) = unsafe { (it.font.items(), it.coordinates.items(), it.glyphs.items()) };
    let text = choices_of(it.tokens, it.depth, it.bytes, it.drop).and_then(|choices| {
        let text = capi::explain(it.call, it.status, font, it.index, coordinates, glyphs, &choices);
        text.ok_or(UNKNOWN_OPTION)?.map_err(status_of)
    });
    status(text.map(|text| it.text = List::of(text.into_bytes())))
}

/// The text of a status.
#[no_mangle]
pub extern "C" fn subsetter_error_text(status: u32, text: &mut List<u8>) {
    let bytes = status_text(status);
    text.at = bytes.as_ptr();
    text.count = bytes.len();
}

/// The version: its four numbers, eight bits each.
#[no_mangle]
pub extern "C" fn subsetter_version() -> u32 {
    VERSION
}
