//! The choices of a font for a PDF, and what it says of itself.

use crate::{Numbers, Options, PdfFont};

/// Choices with the values that `subsetter.h` gives them.
macro_rules! choices {
    ($($about:literal $name:ident: $first:ident $(, $other:ident)*;)*) => {$(
        #[doc = $about]
        #[derive(Debug, Copy, Clone, Default, Eq, PartialEq, Hash)]
        pub enum $name {
            #[default]
            $first,
            $($other,)*
        }
    )*};
}

choices! {
    "What the font program of a font with outlines in `CFF ` is: the bytes of `CFF `, or the whole file." Program: Smallest, OpenType;
    "How the glyphs in use get codes." Codes: Consecutive, Source, EachText;
    "How text runs." Direction: Horizontal, Vertical;
    "Which glyphs FontBBox holds: all of the font, or those of the font program." Bounds: Font, Kept;
    "Whose permission counts: that of the font's maker, as `fsType` says it, or the caller's." Rights: FromFont, Held;
    "How a sheet shows glyphs: in one line, or each in a cell." Layout: Line, Grid;
}

impl Rights {
    /// [`FromFont`](Self::FromFont).
    #[allow(non_upper_case_globals)]
    #[deprecated(note = "its name is `FromFont`")]
    pub const AsSaid: Self = Self::FromFont;
}

/// The choices of a font for a PDF. (Names of the font and of its glyphs are always dropped.)
#[derive(Debug, Copy, Clone, Default, Eq, PartialEq, Hash)]
pub struct PdfOptions {
    pub options: Options,
    pub program: Program,
    pub codes: Codes,
    pub direction: Direction,
    pub bounds: Bounds,
    pub cid_set: bool,
    pub rights: Rights,
    /// The tag in front of the font's name, six capitals; none: it is computed of the font program.
    pub tag: Option<[u8; 6]>,
}

impl PdfOptions {
    pub(crate) fn words(&self) -> [u32; 13] {
        let [_, tokens, depth, drop, bytes] = self.options.words();
        let [front, back] =
            self.tag.map_or([0, 0], |[a, b, c, d, e, f]| [[0, a, b, c], [0, d, e, f]].map(u32::from_be_bytes));
        let choices = [self.program as u32, self.codes as u32, self.direction as u32, self.bounds as u32];
        let [program, codes, direction, bounds] = choices;
        let (cid_set, rights) = (u32::from(self.cid_set), self.rights as u32);
        [52, tokens, depth, drop, bytes, program, codes, direction, bounds, cid_set, rights, front, back]
    }
}

fn ascii(bytes: &[u8]) -> &str {
    std::str::from_utf8(bytes).unwrap_or("")
}

impl PdfFont {
    /// [`text_is_mapped`](Self::text_is_mapped).
    #[deprecated(note = "its name is `text_is_mapped`")]
    pub fn is_said(&self) -> &[u8] {
        self.text_is_mapped()
    }

    /// FontName.
    pub fn font_name(&self) -> &str {
        ascii(self.name())
    }

    /// The CMap from codes to CIDs and its name; none where each code is its CID.
    pub fn encoding(&self) -> Option<(&str, &[u8])> {
        (!self.cmap().is_empty()).then(|| (ascii(self.cmap_name()), self.cmap()))
    }

    /// The bytes of CIDSet; none where it wasn't chosen.
    pub fn cid_set(&self) -> Option<&[u8]> {
        (!self.set().is_empty()).then_some(self.set())
    }

    /// The numbers of the font and its descriptor.
    pub fn numbers(&self) -> &Numbers {
        &self.numbers
    }
}
