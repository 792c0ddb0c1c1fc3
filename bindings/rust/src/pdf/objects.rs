//! Objects of a PDF file, as text.

use alloc::vec::Vec;

/// Whole indirect objects, one after the other.
#[derive(Debug, Clone, Eq, PartialEq, Hash)]
pub struct Objects {
    /// Their bytes.
    pub bytes: Vec<u8>,
    /// Where each object begins in them, for the cross-reference table (7.5.4).
    pub offsets: Vec<usize>,
}

/// The numbers that a writer gives the objects of a font, each of generation 0.
#[derive(Debug, Copy, Clone, Eq, PartialEq, Hash)]
pub struct References {
    /// Of the CIDFont.
    pub cid_font: u32,
    /// Of the font descriptor.
    pub descriptor: u32,
    /// Of the font program.
    pub program: u32,
    /// Of ToUnicode.
    pub to_unicode: u32,
    /// Of CIDToGIDMap as a stream; without one of no effect.
    pub cid_to_gid_map: u32,
    /// Of CIDSet; without one of no effect.
    pub cid_set: u32,
    /// Of the CMap of the file's own; without one of no effect.
    pub encoding: u32,
}

/// The dictionaries of a font's objects, as text. Those of streams have neither Length nor Filter, which the writer adds.
#[derive(Debug, Clone, Eq, PartialEq, Hash)]
pub struct Dictionaries {
    /// The Type 0 font, which pages name.
    pub font: Vec<u8>,
    /// The CIDFont.
    pub cid_font: Vec<u8>,
    /// The font descriptor.
    pub descriptor: Vec<u8>,
    /// The stream of the font program.
    pub program: Vec<u8>,
    /// The stream of ToUnicode.
    pub to_unicode: Vec<u8>,
    /// The stream of CIDToGIDMap, if it is one.
    pub cid_to_gid_map: Option<Vec<u8>>,
    /// The stream of CIDSet, if there is one.
    pub cid_set: Option<Vec<u8>>,
    /// The stream of the CMap, if the file has its own.
    pub encoding: Option<Vec<u8>>,
}

/// How a sheet shows glyphs.
#[derive(Debug, Copy, Clone, Eq, PartialEq, Hash)]
pub enum Layout {
    /// In one line, or in vertical writing in one column, on a page that is as long.
    Line,
    /// Each in a cell of its own, 12 by 16 a page.
    Grid,
}
