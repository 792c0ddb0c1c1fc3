//! Why a call is refused.

use crate::library::{chosen, coordinates, ERRORS};
#[cfg(feature = "variable-fonts")]
use crate::pdf::FontError;
use crate::proved::font_reasons as proved;
use crate::rattle::alloc::Global;
use crate::{Error, Options, Tag};
use core::fmt;

/// A call that was refused, with its error.
#[derive(Debug, Copy, Clone, Eq, PartialEq)]
#[non_exhaustive]
pub enum Call {
    /// [`subset`](crate::subset).
    Subset(Error),
    /// [`subset_with_variations`](crate::subset_with_variations).
    #[cfg(feature = "variable-fonts")]
    SubsetWithVariations(Error),
    /// [`embed`](crate::embed).
    Embed(Error),
    /// [`embed_with_variations`](crate::embed_with_variations).
    #[cfg(feature = "variable-fonts")]
    EmbedWithVariations(Error),
    /// [`pdf_font`](crate::pdf::pdf_font), or [`Text::font`](crate::pdf::Text::font) with the glyphs of the runs.
    #[cfg(feature = "variable-fonts")]
    PdfFont(FontError),
    /// [`glyphs_of`](crate::pdf::glyphs_of), with `NoCmap` also why it lacks characters; [`kinds_of`](crate::pdf::kinds_of) by
    /// `error.into()`.
    #[cfg(feature = "variable-fonts")]
    GlyphsOf(FontError),
    /// [`advances`](crate::pdf::advances), or [`Text::new`](crate::pdf::Text::new) without glyphs.
    #[cfg(feature = "variable-fonts")]
    Advances(Error),
}

/// What a font shows of why a call on it is refused. Its text is for people, and may change.
#[derive(Copy, Clone)]
pub struct Reason(proved::Reason);

impl Reason {
    /// The table that it is about: one that the font lacks, or whose bytes show it. None where it is about the whole file.
    pub fn table(&self) -> Option<Tag> {
        self.0.table().map(|tag| Tag::new(tag.get()))
    }

    /// The glyph that it is about, if it is about one.
    pub fn glyph(&self) -> Option<u16> {
        self.0.glyph()
    }
}

impl fmt::Debug for Reason {
    fn fmt(&self, f: &mut fmt::Formatter<'_>) -> fmt::Result {
        write!(f, "Reason({self})")
    }
}

impl fmt::Display for Reason {
    fn fmt(&self, f: &mut fmt::Formatter<'_>) -> fmt::Result {
        fmt::Display::fmt(&self.0, f)
    }
}

/// The call and its error as the proved call takes them; none of a refusal that is no error of a font.
fn taken(call: Call) -> (proved::Call, Option<Error>) {
    match call {
        Call::Subset(error) => (proved::Call::Subset, Some(error)),
        Call::Embed(error) => (proved::Call::Embed, Some(error)),
        #[cfg(feature = "variable-fonts")]
        Call::SubsetWithVariations(error) => (proved::Call::SubsetAt, Some(error)),
        #[cfg(feature = "variable-fonts")]
        Call::EmbedWithVariations(error) => (proved::Call::EmbedAt, Some(error)),
        #[cfg(feature = "variable-fonts")]
        Call::PdfFont(FontError::Subset(error)) => (proved::Call::PdfFont, Some(error)),
        // (for the proved call such a font is of no known kind)
        #[cfg(feature = "variable-fonts")]
        Call::PdfFont(FontError::BitmapsAlone) => {
            (proved::Call::PdfFont, Some(Error::UnknownKind))
        }
        #[cfg(feature = "variable-fonts")]
        Call::PdfFont(_) => (proved::Call::PdfFont, None),
        #[cfg(feature = "variable-fonts")]
        Call::GlyphsOf(FontError::Subset(error)) => (proved::Call::GlyphsOf, Some(error)),
        // (for the proved call a missing table is a malformed font)
        #[cfg(feature = "variable-fonts")]
        Call::GlyphsOf(FontError::NoCmap) => {
            (proved::Call::GlyphsOf, Some(Error::MalformedFont))
        }
        #[cfg(feature = "variable-fonts")]
        Call::GlyphsOf(_) => (proved::Call::GlyphsOf, None),
        #[cfg(feature = "variable-fonts")]
        Call::Advances(error) => (proved::Call::Advances, Some(error)),
    }
}

/// Whether the font's maker forbids the call.
fn is_forbidden(call: Call) -> bool {
    match call {
        #[cfg(feature = "variable-fonts")]
        Call::PdfFont(FontError::NotPermitted(_)) => true,
        _ => false,
    }
}

/// Why a call on a font was refused, as the font's tables show it: what it names is in the font, or isn't there, or is what was
/// asked for. None where that isn't seen, or memory ran out.
///
/// `data`, `index`, `variation_coordinates`, `glyphs` and `options` are those of the call; calls without coordinates don't look at
/// them, and of the options of `pdf` the limits alone count. A charstring is run within the limits, once at most, and
/// none after the first that can't be.
///
/// ```
/// use subsetter::{embed, explain, Call, Options};
///
/// # let data = include_bytes!("../tests/data/made.ttf");
/// // A font of twelve glyphs.
/// let error = embed(data, 0, &[1, 60000]).unwrap_err();
/// let reason = explain(Call::Embed(error), data, 0, &[], &[1, 60000], &Options::new()).unwrap();
/// assert_eq!(format!("{error}: {reason}"), "malformed font: glyph 60000: the font's glyphs are 0 to 11");
/// assert_eq!((reason.glyph(), reason.table().unwrap().get()), (Some(60000), b"maxp"));
/// ```
pub fn explain(
    call: Call,
    data: &[u8],
    index: u32,
    variation_coordinates: &[(Tag, f32)],
    glyphs: &[u16],
    options: &Options,
) -> Option<Reason> {
    if is_forbidden(call) {
        return proved::find_prohibition(data, index).map(Reason);
    }
    let (call, error) = taken(call);
    let options = chosen(options);
    let asked = proved::Asked {
        call,
        error: ERRORS[error? as usize],
        index,
        glyphs,
        coordinates: &coordinates(variation_coordinates).ok()?,
        extras: options.extras,
        limits: options.limits,
        most_bytes: options.limits.bytes(),
    };
    let found = proved::explain(Global, data, &asked);
    found.ok().flatten().map(Reason)
}
