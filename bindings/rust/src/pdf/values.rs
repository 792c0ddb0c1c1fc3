//! What a PDF says of a font.

/// What the font program is (9.9).
#[derive(Debug, Copy, Clone, Eq, PartialEq, Hash)]
pub enum ProgramKind {
    /// A TrueType file: `FontFile2`, and a CIDFont of `CIDFontType2`.
    TrueType,
    /// The bytes of `CFF `: `FontFile3` of the subtype `CIDFontType0C`.
    BareCff,
    /// An OpenType file with outlines in `CFF ` (PDF 1.6): `FontFile3` of the subtype `OpenType`.
    OpenType,
}

/// The values of the font descriptor (Table 122). Lengths are in thousandths of the em.
#[derive(Debug, Copy, Clone, Eq, PartialEq, Hash)]
pub struct Descriptor<'a> {
    /// FontName: six capitals, `+` and the PostScript name, in bytes that need no escape. BaseFont begins with it.
    pub font_name: &'a str,
    /// Flags (Table 123).
    pub flags: u32,
    /// FontBBox: the left, lower, right and upper edges.
    pub bounds: [i32; 4],
    /// ItalicAngle, in thousandths of a degree, counterclockwise: mostly 0 or less.
    pub italic_angle: i32,
    /// Ascent.
    pub ascent: i32,
    /// Descent, not above 0.
    pub descent: i32,
    /// CapHeight.
    pub cap_height: i32,
    /// XHeight, where the font has it.
    pub x_height: Option<i32>,
    /// StemV.
    pub stem_v: u32,
    /// FontWeight: 100, 200 and so on up to 900.
    pub font_weight: u16,
}

/// What the font's maker permits (`fsType` of the table `OS/2`).
#[derive(Debug, Copy, Clone, Eq, PartialEq, Hash)]
pub struct Permission {
    /// What a document may do with the font.
    pub usage: Usage,
    /// Whether a subset may be embedded for the font.
    pub subsetting: bool,
    /// Whether outlines may be embedded, and not bitmaps alone.
    pub outlines: bool,
}

/// What a document may do with a font.
#[derive(Debug, Copy, Clone, Eq, PartialEq, Hash)]
pub enum Usage {
    /// The font doesn't say.
    Unsaid,
    /// It may be installed.
    Installable,
    /// It may be embedded in a document that is edited.
    Editable,
    /// It may be embedded in a document that is read and printed.
    PreviewAndPrint,
    /// It may be embedded with its maker's permission alone.
    Restricted,
}

/// A CID in vertical writing (9.7.4.3), in thousandths of the em.
#[derive(Debug, Copy, Clone, Eq, PartialEq, Hash)]
pub struct Column {
    /// From one glyph to the next, mostly below 0: downwards.
    pub advance: i32,
    /// The origin of vertical writing, to the right of that of horizontal writing.
    pub x: i32,
    /// And above it.
    pub y: i32,
}

/// The columns of a font.
#[derive(Debug, Copy, Clone, Eq, PartialEq, Hash)]
pub struct Columns<'a> {
    /// Those of the CIDs that strings can show, from 0 on: of glyph 0 and of the glyphs in use, not of their components.
    pub each: &'a [Column],
    /// DW2: the most frequent y and advance.
    pub default: [i32; 2],
}

/// A CMap of the file's own (9.7.5.3).
#[derive(Debug, Copy, Clone, Eq, PartialEq, Hash)]
pub struct Cmap<'a> {
    /// Its CMapName, by which the dictionary of its stream names it too.
    pub name: &'a str,
    /// Its text.
    pub text: &'a [u8],
}
