//! What a caller chooses.

use super::calls::capitals;
use crate::Limits;
use core::{fmt, str};

/// What the font program of a font with outlines in `CFF ` is.
#[derive(Debug, Copy, Clone, Eq, PartialEq, Hash)]
pub enum ProgramChoice {
    /// The bytes of `CFF ` alone.
    Smallest,
    /// The whole file (PDF 1.6). PDF/A-1 forbids it.
    OpenType,
}

/// How the glyphs in use get codes. Code 0 is that of glyph 0 in each.
#[derive(Debug, Copy, Clone, Eq, PartialEq, Hash)]
pub enum Codes {
    /// The codes are the CIDs: from 1 on, in order of use.
    Consecutive,
    /// The code of a glyph is its number in the font, so that a page can be written before the font.
    Source,
    /// Each pair of a glyph and a text has a code: from 1 on, in order of use. So one glyph can say "B" and "b".
    EachText,
}

/// How text runs.
#[derive(Debug, Copy, Clone, Eq, PartialEq, Hash)]
pub enum Direction {
    /// From left to right (or to the left, as the writer of the page moves).
    Horizontal,
    /// From top to bottom.
    Vertical,
}

/// Which glyphs FontBBox holds.
#[derive(Debug, Copy, Clone, Eq, PartialEq, Hash)]
pub enum Bounds {
    /// All glyphs of the font.
    Font,
    /// Those of the font program. Of outlines in `CFF ` it is as [`Bounds::Font`].
    Kept,
}

/// Whose permission counts.
#[derive(Debug, Copy, Clone, Eq, PartialEq, Hash)]
pub enum Rights {
    /// That of the font's maker, as `fsType` of the table `OS/2` says it.
    FromFont,
    /// The caller's, who may embed the font, whatever `fsType` says.
    Held,
}

impl Rights {
    /// [`FromFont`](Self::FromFont).
    #[allow(non_upper_case_globals)]
    #[deprecated(note = "its name is `FromFont`")]
    pub const AsSaid: Self = Self::FromFont;
}

/// The order in which the glyphs of a run are written.
#[derive(Debug, Copy, Clone, Eq, PartialEq, Hash)]
pub enum Order {
    /// As they are seen: from left to right, or from top to bottom.
    Visual,
    /// As the text is read: those of a run from right to left from the last to the first.
    Logical,
}

/// What the cluster numbers of a shaper count.
#[derive(Debug, Copy, Clone, Eq, PartialEq, Hash)]
pub enum ClusterUnit {
    /// Bytes, as rustybuzz and harfrust do.
    Utf8,
    /// UTF-16 units.
    Utf16,
    /// Characters.
    Utf32,
}

/// All that a caller can choose of a [`Text`](super::Text).
#[derive(Debug, Copy, Clone, Eq, PartialEq, Hash)]
pub struct TextOptions {
    pub(super) limits: Limits,
    pub(super) direction: Direction,
    pub(super) order: Order,
    pub(super) clusters: ClusterUnit,
    pub(super) own_glyphs: bool,
}

impl TextOptions {
    /// The limits of [`subset`](crate::subset), and own glyphs; of each other choice it is the first.
    pub fn new() -> Self {
        Self {
            limits: Limits::default(),
            direction: Direction::Horizontal,
            order: Order::Visual,
            clusters: ClusterUnit::Utf8,
            own_glyphs: true,
        }
    }

    /// How far the charstring of a glyph may run.
    #[must_use]
    pub fn limits(self, limits: Limits) -> Self {
        Self { limits, ..self }
    }

    /// How text runs: runs from top to bottom are for a vertical text, and the others for a horizontal one.
    #[must_use]
    pub fn direction(self, direction: Direction) -> Self {
        Self { direction, ..self }
    }

    /// The order in which the glyphs of a run are written.
    #[must_use]
    pub fn order(self, order: Order) -> Self {
        Self { order, ..self }
    }

    /// What the cluster numbers of a shaper count.
    #[must_use]
    pub fn clusters(self, clusters: ClusterUnit) -> Self {
        Self { clusters, ..self }
    }

    /// Whether the font gets own glyphs, which draw glyphs of it together: for a cluster whose glyphs are moved or are more than
    /// its characters, and for a part of a ligature. Readers find such text better. They are made in horizontal text, with
    /// outlines in `glyf` or, for a part of a ligature alone, `CFF `. A licence may forbid glyphs that the font doesn't have.
    #[must_use]
    pub fn own_glyphs(self, own_glyphs: bool) -> Self {
        Self { own_glyphs, ..self }
    }
}

impl Default for TextOptions {
    fn default() -> Self {
        Self::new()
    }
}

/// The tag in front of a subset's name: six capitals (9.6.4).
///
/// ```
/// use subsetter::pdf::SubsetTag;
///
/// assert_eq!(SubsetTag::new(b"ABCDEF").unwrap().to_string(), "ABCDEF");
/// assert_eq!(SubsetTag::new(b"ABCDEf"), None);
/// ```
#[derive(Copy, Clone, Eq, PartialEq, Hash)]
pub struct SubsetTag([u8; 6]);

impl SubsetTag {
    /// None but for six capitals of ASCII.
    pub fn new(letters: &[u8; 6]) -> Option<Self> {
        capitals(letters).map(Self)
    }

    /// The six capitals.
    pub fn letters(&self) -> &[u8; 6] {
        &self.0
    }
}

impl fmt::Display for SubsetTag {
    fn fmt(&self, f: &mut fmt::Formatter<'_>) -> fmt::Result {
        f.pad(str::from_utf8(&self.0).unwrap_or_default())
    }
}

impl fmt::Debug for SubsetTag {
    fn fmt(&self, f: &mut fmt::Formatter<'_>) -> fmt::Result {
        write!(f, "SubsetTag({self})")
    }
}

/// All that a caller can choose of [`pdf_font`](super::pdf_font).
///
/// ```
/// use subsetter::pdf::{Codes, FontOptions};
///
/// let options = FontOptions::new().codes(Codes::EachText).cid_set(true).hinting(false);
/// assert_ne!(options, FontOptions::new());
/// assert_eq!(FontOptions::new(), FontOptions::default());
/// ```
#[derive(Debug, Copy, Clone, Eq, PartialEq, Hash)]
pub struct FontOptions {
    pub(super) limits: Limits,
    pub(super) hinting: bool,
    pub(super) program: ProgramChoice,
    pub(super) codes: Codes,
    pub(super) direction: Direction,
    pub(super) bounds: Bounds,
    pub(super) cid_set: bool,
    pub(super) tag: Option<SubsetTag>,
    pub(super) rights: Rights,
}

impl FontOptions {
    /// The limits of [`subset`](crate::subset); hinting is kept, there is no CIDSet, the tag is computed of the font program,
    /// and of each other choice it is the first.
    pub fn new() -> Self {
        Self {
            limits: Limits::default(),
            hinting: true,
            program: ProgramChoice::Smallest,
            codes: Codes::Consecutive,
            direction: Direction::Horizontal,
            bounds: Bounds::Font,
            cid_set: false,
            tag: None,
            rights: Rights::FromFont,
        }
    }

    /// How far the charstring of a glyph may run, and how large the font program may be.
    #[must_use]
    pub fn limits(self, limits: Limits) -> Self {
        Self { limits, ..self }
    }

    /// Whether the instructions of TrueType outlines are kept, as of [`Options`](crate::Options::hinting).
    #[must_use]
    pub fn hinting(self, hinting: bool) -> Self {
        Self { hinting, ..self }
    }

    /// What the font program of a font with outlines in `CFF ` is.
    #[must_use]
    pub fn program(self, program: ProgramChoice) -> Self {
        Self { program, ..self }
    }

    /// How the glyphs in use get codes.
    #[must_use]
    pub fn codes(self, codes: Codes) -> Self {
        Self { codes, ..self }
    }

    /// How text runs.
    #[must_use]
    pub fn direction(self, direction: Direction) -> Self {
        Self { direction, ..self }
    }

    /// Which glyphs FontBBox holds.
    #[must_use]
    pub fn bounds(self, bounds: Bounds) -> Self {
        Self { bounds, ..self }
    }

    /// Whether there is a CIDSet (9.8.3). PDF/A-1 demands it; PDF 2.0 has none.
    #[must_use]
    pub fn cid_set(self, cid_set: bool) -> Self {
        Self { cid_set, ..self }
    }

    /// The tag of the name. Without one it is computed of the font program, so that equal programs have equal tags.
    #[must_use]
    pub fn tag(self, tag: SubsetTag) -> Self {
        let tag = Some(tag);
        Self { tag, ..self }
    }

    /// Whose permission counts.
    #[must_use]
    pub fn rights(self, rights: Rights) -> Self {
        Self { rights, ..self }
    }
}

impl Default for FontOptions {
    fn default() -> Self {
        Self::new()
    }
}
