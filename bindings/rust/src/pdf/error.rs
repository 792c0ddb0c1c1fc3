//! Why there is no font.

use super::Permission;
use crate::Error;
use core::fmt;

/// Why a PDF gets nothing of a font.
#[derive(Debug, Copy, Clone, Eq, PartialEq)]
#[non_exhaustive]
pub enum FontError {
    /// The error of a call that subsets a font.
    Subset(Error),
    /// The font's maker doesn't permit it (`fsType` of the table `OS/2`), and the caller doesn't hold the
    /// [rights](super::Rights::Held).
    NotPermitted(Permission),
    /// A text has more than 256 UTF-16 units.
    TextTooLong,
    /// The font has no table by which characters have glyphs.
    NoCmap,
    /// The face has no outlines (`glyf`, `CFF `, `CFF2`), but bitmaps or other pictures, or none.
    BitmapsAlone,
}

impl From<Error> for FontError {
    fn from(error: Error) -> Self {
        Self::Subset(error)
    }
}

impl fmt::Display for FontError {
    fn fmt(&self, f: &mut fmt::Formatter<'_>) -> fmt::Result {
        match self {
            Self::Subset(error) => error.fmt(f),
            Self::NotPermitted(_) => f.write_str("embedding not permitted"),
            Self::TextTooLong => f.write_str("text too long"),
            Self::NoCmap => f.write_str("no usable cmap in font"),
            Self::BitmapsAlone => f.write_str("no outlines in font"),
        }
    }
}

/// Why a run isn't shown.
#[derive(Debug, Copy, Clone, Eq, PartialEq)]
#[non_exhaustive]
pub enum TextError {
    /// The glyphs are no run of the font or not of their text, or a number is too large: [`run`](super::Text::run) and
    /// [`shaped`](super::Text::shaped) list the causes. Often the direction is another one.
    InvalidText,
    /// The font of the text would have more than 65,535 codes, code 0 among them, or glyphs: the run is for another one.
    Overfull,
    /// The error of a call that subsets a font.
    Subset(Error),
}

impl From<Error> for TextError {
    fn from(error: Error) -> Self {
        Self::Subset(error)
    }
}

impl fmt::Display for TextError {
    fn fmt(&self, f: &mut fmt::Formatter<'_>) -> fmt::Result {
        match self {
            Self::InvalidText => f.write_str("invalid text"),
            Self::Overfull => f.write_str("too many codes"),
            Self::Subset(error) => error.fmt(f),
        }
    }
}
