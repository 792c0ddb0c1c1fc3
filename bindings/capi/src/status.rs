//! Statuses: what each call returns to C.

use fonts::Error;

/// All is done.
pub const DONE: u32 = 0;
/// A buffer is too small.
pub const TOO_SMALL: u32 = 8;
/// The limit of the depth is 0, at which no charstring can run.
pub const NO_DEPTH: u32 = 9;
/// The options have a size, a depth or a bit that isn't known.
pub const UNKNOWN_OPTION: u32 = 10;
/// The font's maker doesn't permit that it is embedded.
pub const NOT_PERMITTED: u32 = 11;
/// A text isn't one, or is too long.
pub const INVALID_TEXT: u32 = 12;
/// The font has no table by which characters have glyphs.
pub const NO_CMAP: u32 = 13;
/// The face has no outlines.
pub const BITMAPS_ALONE: u32 = 14;
/// The font of a text would have too many codes.
pub const OVERFULL: u32 = 15;
/// The numbers of objects are too few or too many, 0, or not distinct.
pub const INVALID_NUMBERS: u32 = 16;
/// A fault of the library itself, which is no status of the proved one: code of Rust panicked. No font is known to cause it.
pub const PANICKED: u32 = u32::MAX;

/// The number of an error: from 1 on, in the order of the names in `Error`.
pub fn status_of(error: Error) -> u32 {
    match error {
        Error::UnknownKind => 1,
        Error::MalformedFont => 2,
        Error::Unimplemented => 3,
        Error::SubsetError => 4,
        Error::OverflowError => 5,
        Error::CFFError => 6,
        Error::OutOfMemory => 7,
    }
}

/// The text of a status.
pub fn status_text(status: u32) -> &'static [u8] {
    match status {
        DONE => b"all done",
        1 => b"unknown font kind",
        2 => b"malformed font",
        3 => b"unsupported feature in font",
        4 => b"subsetting of font failed",
        5 => b"overflow occurred",
        6 => b"processing CFF table failed",
        7 => b"out of memory",
        TOO_SMALL => b"a buffer is too small",
        NO_DEPTH => b"the limit of the depth is 0",
        UNKNOWN_OPTION => b"wrong option, size or text",
        NOT_PERMITTED => b"embedding not permitted",
        INVALID_TEXT => b"invalid text",
        NO_CMAP => b"no usable cmap in font",
        BITMAPS_ALONE => b"no outlines in font",
        OVERFULL => b"too many codes",
        INVALID_NUMBERS => b"invalid numbers",
        _ => b"unknown status",
    }
}

/// The numbers of a version such as `1.0.0.0` in one, eight bits each.
pub const fn version_of(text: &[u8]) -> u32 {
    let (mut version, mut number, mut at) = (0, 0, 0);
    while at < text.len() {
        if text[at].is_ascii_digit() {
            number = 10 * number + (text[at] - b'0') as u32;
        } else {
            version = (version | number) << 8;
            number = 0;
        }
        at += 1;
    }
    version | number
}

/// The version of the library: its three numbers and 0, eight bits each.
pub const VERSION: u32 = version_of(concat!(env!("CARGO_PKG_VERSION"), ".0").as_bytes());
