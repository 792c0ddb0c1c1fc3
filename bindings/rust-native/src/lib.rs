//! Safe calls over the C library `subsetter`, as `subsetter.h` describes it: subsets, embedded fonts, and all that a PDF has of a
//! font.
//!
//! ```
//! # let data = include_bytes!("../../rust/tests/data/made.ttf");
//! let embedded = subsetter_native::embed(data, 0, &[], &[1, 5], &subsetter_native::Options::default())?;
//! assert_eq!((embedded.cids, embedded.widths.len()), (vec![1, 2], 3));
//! # Ok::<(), subsetter_native::Error>(())
//! ```
//!
//! `data` is a whole font file, `index` a face of a collection, from 0. `glyphs` are glyph numbers of the font; the new font has
//! glyph 0, then these in order, each once, and then each further glyph that they need. Its glyph numbers are the CIDs.

mod library;
mod pdf;

pub use library::{glyphs_of, pdf_font, Column, Numbers, Objects, PdfFont};
pub use pdf::{Bounds, Codes, Direction, Layout, PdfOptions, Program, Rights};

use library::Made;
use std::fmt;

/// Errors, each by its status of `subsetter.h` and with its text.
macro_rules! errors {
    ($($status:literal $name:ident: $text:literal;)*) => {
        /// Why a call failed, as the statuses of `subsetter.h`.
        #[derive(Debug, Copy, Clone, Eq, PartialEq)]
        pub enum Error {
            $($name,)*
            /// Another status: the library is of another version, or its own code failed.
            Unknown(u32),
        }

        impl Error {
            fn of_status(status: u32) -> Self {
                match status {
                    $($status => Self::$name,)*
                    _ => Self::Unknown(status),
                }
            }
        }

        impl fmt::Display for Error {
            fn fmt(&self, f: &mut fmt::Formatter<'_>) -> fmt::Result {
                match self {
                    $(Self::$name => f.write_str($text),)*
                    Self::Unknown(status) => write!(f, "unknown status {status}"),
                }
            }
        }
    };
}

errors! {
    1 UnknownKind: "unknown font kind";
    2 MalformedFont: "malformed font";
    3 Unimplemented: "unsupported feature in font";
    4 SubsetError: "subsetting of font failed";
    5 OverflowError: "overflow occurred";
    6 CFFError: "processing CFF table failed";
    7 OutOfMemory: "out of memory";
    10 UnknownOption: "wrong option, size or text";
    11 NotPermitted: "embedding not permitted";
    12 InvalidText: "invalid text";
    13 NoCmap: "no usable cmap in font";
    14 BitmapsAlone: "no outlines in font";
}

impl std::error::Error for Error {}

/// For [`Options::drop`]: the instructions of outlines in `glyf`.
pub const DROP_HINTING: u32 = 1;
/// For [`Options::drop`]: the table `name`.
pub const DROP_NAMES: u32 = 2;
/// For [`Options::drop`]: the names of glyphs in `post`.
pub const DROP_GLYPH_NAMES: u32 = 4;

/// For [`Options::drop`]: all of these, for the smallest font.
pub const SMALL: u32 = 7;

/// The choices of a subset. 0 is the default of each.
#[derive(Debug, Copy, Clone, Default, Eq, PartialEq, Hash)]
pub struct Options {
    /// The most numbers and operators that the charstring of a glyph may run for; 0 for 1,000,000.
    pub tokens: u32,
    /// How deep it may call, at most 255; 0 for 64.
    pub depth: u32,
    /// What is left out: the sum of some of the constants `DROP_..`.
    pub drop: u32,
    /// The most bytes that the new font may have; 0 for no bound.
    pub bytes: u32,
}

impl Options {
    fn words(&self) -> [u32; 5] {
        [20, self.tokens, self.depth, self.drop, self.bytes]
    }
}

/// A font with the CID of each given glyph and the width of each CID from 0 on, in thousandths of the em.
#[derive(Debug, Clone, Eq, PartialEq, Hash)]
pub struct Embedded {
    /// The font program.
    pub font: Vec<u8>,
    /// The CID of each given glyph.
    pub cids: Vec<u16>,
    /// The width of each CID.
    pub widths: Vec<u32>,
}

/// The subset of a font at coordinates, which are tags of axes with values; without any it is subset as it is. A value of NaN is
/// the axis's default. The last value for an axis counts.
///
/// # Errors
///
/// Those of [`Error`] from `UnknownKind` to `UnknownOption`.
pub fn subset(
    data: &[u8],
    index: u32,
    coordinates: &[([u8; 4], f32)],
    glyphs: &[u16],
    options: &Options,
) -> Result<Vec<u8>, Error> {
    let made = Made::of(false, data, index, coordinates, glyphs, &options.words())?;
    Ok(made.font().to_vec())
}

/// The same with CIDs and widths.
///
/// # Errors
///
/// As of [`subset`]; `MalformedFont` also where the font has no `hmtx` or no `head`, or 0 units per em.
pub fn embed(
    data: &[u8],
    index: u32,
    coordinates: &[([u8; 4], f32)],
    glyphs: &[u16],
    options: &Options,
) -> Result<Embedded, Error> {
    let made = Made::of(true, data, index, coordinates, glyphs, &options.words())?;
    Ok(Embedded { font: made.font().to_vec(), cids: made.cids().to_vec(), widths: made.widths().to_vec() })
}
