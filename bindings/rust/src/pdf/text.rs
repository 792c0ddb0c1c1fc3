//! Text as runs of shaped glyphs.

use super::{with_room, Direction, FontError, FontOptions, PdfFont, Shown, TextError, TextOptions};
use crate::proved::font_advances;
use crate::proved::own_choice::{own_choice, OwnChoice};
use crate::proved::pdf_figures::OwnGlyphs;
use crate::proved::pdf_operators::{show_run, Font};
use crate::proved::pdf_own_runs::show_own_run;
use crate::proved::pdf_runs as proved;
use crate::proved::pdf_sheet::{write_lines, SheetLine};
use crate::proved::pdf_text_font::text_font;
use crate::proved::subsetter::Tag as ProvedTag;
use crate::proved::subsetter_base::remapper::Remapper;
use crate::proved::text_metrics::{column_metrics, text_metrics, TextMetrics};
use crate::rattle::alloc::Global;
use crate::{library, Error, Tag};
use alloc::vec::Vec;
use core::fmt;

/// How the glyphs of a run follow each other. They are in visual order, as a shaper gives them.
#[derive(Debug, Copy, Clone, Eq, PartialEq, Hash)]
pub enum RunDirection {
    /// From left to right, as the text is read.
    LeftToRight,
    /// From left to right, where the text is read from the last glyph to the first (Arabic, Hebrew).
    RightToLeft,
    /// From top to bottom.
    TopToBottom,
}

/// A glyph of a run, with lengths in the font's units; y goes up.
#[derive(Debug, Default, Copy, Clone, Eq, PartialEq, Hash)]
pub struct Item<'a> {
    /// The number of the glyph in the font.
    pub glyph: u16,
    /// The text of the cluster that begins with this glyph; none where the glyph continues a cluster. Of a cluster that says
    /// nothing it is empty.
    pub text: Option<&'a str>,
    /// How far the pen goes on; 0 from top to bottom.
    pub x_advance: i32,
    /// How far it goes up; 0 but from top to bottom.
    pub y_advance: i32,
    /// How far the glyph is from the pen.
    pub x_offset: i32,
    /// How far it is above the pen.
    pub y_offset: i32,
}

/// A glyph as HarfBuzz has it in its two arrays, and rustybuzz and harfrust in theirs, with lengths in the font's units.
#[derive(Debug, Default, Copy, Clone, Eq, PartialEq, Hash)]
pub struct ShapedGlyph {
    /// The number of the glyph in the font, which hb.h calls `codepoint`.
    pub glyph_id: u32,
    /// How much of the text is before the glyph's cluster, as [`TextOptions::clusters`] counts.
    pub cluster: u32,
    /// How far the pen goes on.
    pub x_advance: i32,
    /// How far it goes up.
    pub y_advance: i32,
    /// How far the glyph is from the pen.
    pub x_offset: i32,
    /// How far it is above the pen.
    pub y_offset: i32,
}

/// A run as a page shows it.
#[derive(Debug, Clone, Eq, PartialEq, Hash)]
pub struct Run {
    /// Operators for a content stream: between BT and ET, after Tf with the font and the size, and Td or Tm. They count on a
    /// scaling (Tz) of 100, and on 0 for the character and word spacing (Tc, Tw) and the rise (Ts), and leave these so.
    pub operators: Vec<u8>,
    /// How far the pen goes on, in thousandths of the em; downwards it is below 0.
    pub advance: i32,
}

/// The text of a font in a PDF: runs of shaped glyphs, and then the font for them.
///
/// Readers of the PDF find the text, by copying and by searching, also those that don't know ActualText: each code says one
/// character, and the characters of a cluster are shared among its glyphs. No glyph is further from where the shaper has it
/// than half a thousandth of the em. A page can be written before the font is made, since codes stay. The font gets
/// [own glyphs](TextOptions::own_glyphs): of parts of ligatures, and with TrueType outlines of marks with their letters.
///
/// ```
/// use subsetter::pdf::{FontOptions, RunDirection, ShapedGlyph, Text, TextOptions};
///
/// # fn main() -> Result<(), subsetter::pdf::TextError> {
/// # let data = include_bytes!("../../tests/data/made.ttf");
/// let mut text = Text::new(data, 0, &[], &TextOptions::new())?;
/// // What a shaper has of "Afix": glyph 5 is a ligature, and x is drawn nearer.
/// let line = [(1, 0, 1366), (5, 1, 1039), (10, 3, 1024)].map(|(glyph_id, cluster, x_advance)| {
///     ShapedGlyph { glyph_id, cluster, x_advance, ..ShapedGlyph::default() }
/// });
/// let run = text.shaped("Afix", &line, RunDirection::LeftToRight, 12_000)?;
/// // The ligature is cut in two: f has its ink, and i is a blank.
/// assert_eq!(run.operators, b"[<000100020003>49<0004>]TJ\n");
/// assert_eq!(run.advance, 1674);
/// // .. other runs, and then the font of them all.
/// let font = text.font(&FontOptions::new()).unwrap();
/// assert_eq!(font.widths(), [500, 667, 278, 278, 500]);
/// # Ok(())
/// # }
/// ```
pub struct Text<'a> {
    data: &'a [u8],
    index: u32,
    coordinates: Vec<(ProvedTag, i32)>,
    options: TextOptions,
    metrics: Metrics,
    pairs: Remapper<u16, proved::Pair>,
    own: OwnGlyphs,
}

/// What runs need of the font.
enum Metrics {
    /// Without own glyphs.
    Plain(TextMetrics),
    WithOwn(OwnChoice),
}

impl Metrics {
    fn font(&self) -> Font<'_> {
        match self {
            Self::Plain(metrics) => metrics.font(),
            Self::WithOwn(choice) => choice.font(),
        }
    }
}

/// The characters of all texts, one after the other.
fn characters(items: &[Item<'_>]) -> Result<Vec<char>, Error> {
    let texts = || items.iter().filter_map(|it| it.text);
    let mut list = with_room(texts().map(|text| text.chars().count()).sum())?;
    list.extend(texts().flat_map(str::chars));
    Ok(list)
}

/// The items as the proved calls take them: `characters` are those of their texts.
fn taken<'a>(
    items: &[Item<'_>],
    mut characters: &'a [char],
) -> Result<Vec<proved::Item<'a>>, Error> {
    let mut list = with_room(items.len())?;
    for it in items {
        let text = it.text.map(|text| {
            let (text, behind) = characters.split_at(text.chars().count());
            characters = behind;
            text
        });
        list.push(proved::Item {
            glyph: it.glyph,
            text,
            x_advance: it.x_advance,
            y_advance: it.y_advance,
            x_offset: it.x_offset,
            y_offset: it.y_offset,
        });
    }
    Ok(list)
}

impl<'a> Text<'a> {
    /// The text of a font at coordinates (none: the font's default), before the first run.
    ///
    /// `data`, `index` and `variation_coordinates` are as for [`embed_with_variations`](crate::embed_with_variations).
    ///
    /// # Errors
    ///
    /// Those of [`advances`](super::advances) of all glyphs; [`Error::MalformedFont`] also where `maxp` is missing.
    pub fn new(
        data: &'a [u8],
        index: u32,
        variation_coordinates: &[(Tag, f32)],
        options: &TextOptions,
    ) -> Result<Self, Error> {
        let coordinates = library::coordinates(variation_coordinates)?;
        let within = library::within(&options.limits);
        let metrics = match options.direction {
            Direction::Vertical => {
                column_metrics(Global, data, index, &coordinates, &within).map(Metrics::Plain)
            }
            Direction::Horizontal if options.own_glyphs => {
                own_choice(Global, data, index, &coordinates, &within).map(Metrics::WithOwn)
            }
            Direction::Horizontal => {
                text_metrics(Global, data, index, &coordinates, &within).map(Metrics::Plain)
            }
        };
        Ok(Self {
            data,
            index,
            coordinates,
            options: *options,
            metrics: metrics.map_err(library::refused)?,
            pairs: proved::no_pairs(Global).map_err(library::refused)?,
            own: OwnGlyphs::new(Global),
        })
    }

    /// What shows a run of glyphs, in visual order. `size` is that of the font, in thousandths of a point: 12,000 for 12 points.
    /// It matters to the rise of marks alone.
    ///
    /// ```
    /// use subsetter::pdf::{Item, RunDirection, Text, TextOptions};
    ///
    /// # fn main() -> Result<(), subsetter::pdf::TextError> {
    /// # let data = include_bytes!("../../tests/data/made.ttf");
    /// let mut text = Text::new(data, 0, &[], &TextOptions::new())?;
    /// let letter = Item { glyph: 1, text: Some("a\u{301}"), x_advance: 1366, ..Item::default() };
    /// let accent = Item { glyph: 7, x_offset: -1024, y_offset: 205, ..Item::default() };
    /// let run = text.run(&[letter, accent], RunDirection::LeftToRight, 12_000)?;
    /// // One own glyph of both, which says a, and a blank, which says the accent.
    /// assert_eq!(run.operators, b"[<00010002>]TJ\n");
    /// # Ok(())
    /// # }
    /// ```
    ///
    /// # Errors
    ///
    /// - [`TextError::InvalidText`]: the first glyph continues a cluster; a glyph isn't the font's; an advance isn't along the
    ///   line; a place doesn't fit 32 bits; an ActualText is needed that has more than 16,382 UTF-16 units; or the run is across
    ///   [`TextOptions::direction`].
    /// - [`TextError::Overfull`]: with this run there would be more than 65,535 codes, with code 0. The run is for another
    ///   `Text` of the font.
    /// - [`TextError::Subset`] with [`Error::OutOfMemory`].
    ///
    /// Earlier codes stay.
    pub fn run(
        &mut self,
        items: &[Item<'_>],
        direction: RunDirection,
        size: u32,
    ) -> Result<Run, TextError> {
        let characters = characters(items)?;
        let items = taken(items, &characters)?;
        self.show(&items, direction, size)
    }

    /// [`run`](Self::run) of a text and the glyphs that a shaper has for it. The text of a cluster goes from the cluster's
    /// number to the next greater one of the run, or to the end.
    ///
    /// # Errors
    ///
    /// Those of [`run`](Self::run); [`TextError::InvalidText`] also where a cluster's number is after the text or inside of
    /// a character, or falls from one glyph to the next (rises, from right to left).
    pub fn shaped(
        &mut self,
        text: &str,
        glyphs: &[ShapedGlyph],
        direction: RunDirection,
        size: u32,
    ) -> Result<Run, TextError> {
        let mut characters = with_room(text.chars().count())?;
        characters.extend(text.chars());
        let mut shaped = with_room(glyphs.len())?;
        shaped.extend(glyphs.iter().map(|it| proved::Shaped {
            glyph: it.glyph_id,
            cluster: it.cluster,
            x_advance: it.x_advance,
            y_advance: it.y_advance,
            x_offset: it.x_offset,
            y_offset: it.y_offset,
        }));
        let unit = self.options.clusters.chosen();
        let items = proved::items_of(Global, direction.chosen(), unit, &characters, &shaped);
        self.show(&items.map_err(TextError::of)?, direction, size)
    }

    /// [`run`](Self::run) of glyphs with the font's own advances, from left to right or from top to bottom: of what
    /// [`glyphs_of`](super::glyphs_of) has.
    ///
    /// ```
    /// use subsetter::pdf::{glyphs_of, Text, TextOptions};
    ///
    /// # fn main() -> Result<(), subsetter::pdf::TextError> {
    /// # let data = include_bytes!("../../tests/data/made.ttf");
    /// let mut text = Text::new(data, 0, &[], &TextOptions::new())?;
    /// let run = text.plain(&glyphs_of(data, 0, "ABBA").unwrap(), 12_000)?;
    /// assert_eq!(run.operators, b"[<0001000200020001>]TJ\n");
    /// # Ok(())
    /// # }
    /// ```
    ///
    /// # Errors
    ///
    /// Those of [`run`](Self::run) and of [`advances`](super::advances).
    pub fn plain(&mut self, shown: &[Shown<'_>], size: u32) -> Result<Run, TextError> {
        let mut glyphs = with_room(shown.len())?;
        glyphs.extend(shown.iter().map(|it| it.glyph));
        let within = library::within(&self.options.limits);
        let (data, index, at) = (self.data, self.index, &self.coordinates);
        let found = font_advances::advances(Global, data, index, &glyphs, at, &within);
        let found = found.map_err(library::refused)?;
        let (advances, direction) = match self.options.direction {
            Direction::Horizontal => (found.widths, RunDirection::LeftToRight),
            Direction::Vertical => (found.heights, RunDirection::TopToBottom),
        };
        let mut items = with_room(shown.len())?;
        for (it, advance) in shown.iter().zip(advances.iter()) {
            let mut item = Item {
                glyph: it.glyph,
                text: Some(it.text),
                ..Item::default()
            };
            match self.options.direction {
                Direction::Horizontal => item.x_advance = (*advance).into(),
                Direction::Vertical => {
                    item.y_advance = -i32::from(*advance);
                    item.y_offset = self.height_of(it.glyph);
                }
            }
            items.push(item);
        }
        self.run(&items, direction, size)
    }

    /// How far a glyph is above the pen in a column, in the font's units.
    fn height_of(&self, glyph: u16) -> i32 {
        let font = self.metrics.font();
        let position = font.metrics.get(usize::from(glyph));
        let up = -i64::from(position.map_or(0, |it| it.position));
        let units = (2 * up * i64::from(font.units) + 1000).div_euclid(2000);
        i32::try_from(units).unwrap_or(0)
    }

    fn show(
        &mut self,
        items: &[proved::Item<'_>],
        direction: RunDirection,
        size: u32,
    ) -> Result<Run, TextError> {
        let is_vertical = direction == RunDirection::TopToBottom;
        if is_vertical != (self.options.direction == Direction::Vertical) {
            return Err(TextError::InvalidText);
        }
        let font = self.metrics.font();
        let order = self.options.order.chosen();
        let (direction, pairs) = (direction.chosen(), &mut self.pairs);
        let shown = match &self.metrics {
            Metrics::Plain(_) => show_run(Global, font, direction, order, size, pairs, items),
            Metrics::WithOwn(found) => {
                let (choice, own) = (found.choice(), &mut self.own);
                show_own_run(
                    Global, font, &choice, direction, order, size, pairs, own, items,
                )
            }
        };
        let operators = shown.map_err(TextError::of)?.into_inner();
        // To the nearest, halves up, as the last operators have it.
        let units = i64::from(font.units);
        let along = |it: &proved::Item<'_>| match is_vertical {
            true => it.y_advance,
            false => it.x_advance,
        };
        let length: i64 = items.iter().map(along).map(i64::from).sum();
        let advance = (2000 * length + units).div_euclid(2 * units);
        let advance = i32::try_from(advance).map_err(|_| TextError::InvalidText)?;
        Ok(Run { operators, advance })
    }

    /// The advances of glyphs in thousandths of the em, as W or W2 has them: by how much the pen goes on in a page, below 0
    /// downwards. What text is laid out by are [`advances`](super::advances), which are exact.
    ///
    /// # Errors
    ///
    /// [`Error::MalformedFont`]: a glyph isn't the font's; [`Error::OutOfMemory`].
    pub fn advances(&self, glyphs: &[u16]) -> Result<Vec<i32>, Error> {
        let metrics = self.metrics.font().metrics;
        let mut list = with_room(glyphs.len())?;
        for glyph in glyphs {
            let found = metrics.get(usize::from(*glyph));
            list.push(found.ok_or(Error::MalformedFont)?.displacement);
        }
        Ok(list)
    }

    /// All that a PDF has of the font for the runs so far. After more runs it may be asked again: a later font has the codes
    /// of an earlier one.
    ///
    /// The codes are the CIDs, which [`glyph_count`](PdfFont::glyph_count) counts. It has no entries, so that
    /// [`codes`](PdfFont::codes), [`cids`](PdfFont::cids), [`text_is_mapped`](PdfFont::text_is_mapped) and the font's own
    /// [`sheet`](PdfFont::sheet) are empty. Of the options [`codes`](FontOptions::codes),
    /// [`direction`](FontOptions::direction) and [`program`](FontOptions::program) have no effect: outlines in `CFF ` are the bare
    /// table.
    ///
    /// # Errors
    ///
    /// Those of [`pdf_font`](super::pdf_font) but for [`FontError::TextTooLong`]; [`Error::OverflowError`] also where the font
    /// has no room for a blank, or in `CFF ` for the codes.
    pub fn font(&self, options: &FontOptions) -> Result<PdfFont, FontError> {
        let options = options.direction(self.options.direction).chosen();
        let (data, index, at) = (self.data, self.index, &self.coordinates);
        let (count, own) = (self.metrics.font().metrics.len(), &self.own.list);
        let made = text_font(
            Global,
            data,
            index,
            at,
            &self.pairs,
            count,
            own,
            &options,
        );
        let made = made.map_err(FontError::of)?;
        let map = made.cid_to_gid_map.map(|it| it.into_inner());
        Ok(PdfFont::with_map(made.font, map)?)
    }

    /// A whole PDF file of runs, each on a page of its own, with the font for the runs so far. The font has 36 points there: the
    /// runs are of this text, with 36,000 as their size. A page is as long as its line with margins of 36 points, and has at most
    /// 14,400 points. Without runs there are no pages.
    ///
    /// ```
    /// use subsetter::pdf::{glyphs_of, FontOptions, Text, TextError, TextOptions};
    ///
    /// # fn main() -> Result<(), TextError> {
    /// # let data = include_bytes!("../../tests/data/made.ttf");
    /// let mut text = Text::new(data, 0, &[], &TextOptions::new())?;
    /// let run = text.plain(&glyphs_of(data, 0, "ABBA").unwrap(), 36_000)?;
    /// let file = text.sheet(&[run], &FontOptions::new()).unwrap();
    /// assert!(file.starts_with(b"%PDF-1.7") && file.ends_with(b"%%EOF\n"));
    /// # Ok(())
    /// # }
    /// ```
    ///
    /// # Errors
    ///
    /// Those of [`font`](Self::font); [`Error::OverflowError`] also where the file would have 10,000,000,000 bytes or more.
    pub fn sheet(&self, runs: &[Run], options: &FontOptions) -> Result<Vec<u8>, FontError> {
        let font = self.font(options)?;
        let mut lines = with_room(runs.len())?;
        lines.extend(runs.iter().map(|it| SheetLine {
            operators: &it.operators,
            advance: it.advance.unsigned_abs(),
        }));
        let made = write_lines(Global, font.view().values, &lines);
        Ok(made.map_err(library::refused)?.into_inner())
    }
}

impl fmt::Debug for Text<'_> {
    fn fmt(&self, f: &mut fmt::Formatter<'_>) -> fmt::Result {
        f.debug_struct("Text")
            .field("index", &self.index)
            .field("options", &self.options)
            .field("code_count", &self.pairs.len())
            .finish_non_exhaustive()
    }
}
