//! The objects of a font as data, which a writer can pack and encrypt.

use super::PdfFont;
use crate::library::refused;
use crate::proved::pdf_objects as proved;
use crate::proved::pdf_text::FontValues;
use crate::rattle::alloc::Global;
use crate::Error;
use alloc::borrow::Cow;
use alloc::vec::Vec;
use core::fmt;
use core::ops::Range;

/// What an object of a font is, in the order of [`PdfFont::parts`] but for the last, which comes after ToUnicode.
#[derive(Debug, Copy, Clone, Eq, PartialEq, Hash)]
#[non_exhaustive]
pub enum Role {
    /// The Type 0 font, which pages name (9.7.6).
    Font,
    /// Its CIDFont (9.7.4).
    CidFont,
    /// The font descriptor (9.8).
    Descriptor,
    /// The font program, a stream (9.9).
    Program,
    /// The ToUnicode CMap, a stream (9.10.3).
    ToUnicode,
    /// CIDSet, a stream (9.8.3).
    CidSet,
    /// The CMap of the file's own, a stream (9.7.5).
    Encoding,
    /// CIDToGIDMap, a stream (9.7.4.2).
    CidToGidMap,
}

/// An object of a font.
#[derive(Debug, Clone, Eq, PartialEq, Hash)]
pub struct Part<'a> {
    /// What it is.
    pub role: Role,
    /// The number that it was given.
    pub number: u32,
    /// The entries of its dictionary, each with a blank after it: without `<<`, `>>`, Length and, unless it was packed, Filter.
    pub entries: Vec<u8>,
    /// Where strings are in the entries, with the bytes that begin and end them. A file that is encrypted has these encrypted too.
    pub strings: Vec<Range<usize>>,
    /// The bytes of a stream; none where the object is a dictionary alone.
    pub stream: Option<Cow<'a, [u8]>>,
}

impl Part<'_> {
    /// Packs a stream by a function, and says by which filter it is unpacked: the value of Filter, as `"/FlateDecode"`, which isn't
    /// checked. It is for a part that isn't packed yet. Where there is no stream, nothing happens.
    ///
    /// ```
    /// use subsetter::pdf::{pdf_font, FontOptions, Shown};
    ///
    /// # fn main() -> Result<(), subsetter::pdf::FontError> {
    /// # let data = include_bytes!("../../tests/data/made.ttf");
    /// // (`miniz_oxide::deflate::compress_to_vec_zlib(bytes, 6)` packs for "/FlateDecode")
    /// fn to_hex(bytes: &[u8]) -> Vec<u8> {
    ///     bytes.iter().flat_map(|it| format!("{it:02x}").into_bytes()).chain(*b">").collect()
    /// }
    /// let font = pdf_font(data, 0, &[], &[Shown::new(1, "A")], &FontOptions::new())?;
    /// let mut parts = font.parts(&[1, 2, 3, 4, 5]).unwrap();
    /// for part in &mut parts {
    ///     part.pack("/ASCIIHexDecode", to_hex).unwrap();
    /// }
    /// assert_eq!(parts[4].entries, b"/Filter /ASCIIHexDecode ");
    /// assert_eq!(parts[4].stream.as_deref(), Some(&to_hex(font.to_unicode())[..]));
    /// # Ok(())
    /// # }
    /// ```
    ///
    /// # Errors
    ///
    /// [`Error::OutOfMemory`] alone; the part is as it was.
    pub fn pack(&mut self, filter: &str, pack: impl FnOnce(&[u8]) -> Vec<u8>) -> Result<(), Error> {
        if let Some(stream) = &mut self.stream {
            let texts = ["/Filter ", filter, " "];
            let size = texts.iter().map(|it| it.len()).sum();
            let room = self.entries.try_reserve_exact(size);
            room.map_err(|_| Error::OutOfMemory)?;
            *stream = Cow::Owned(pack(stream));
            let bytes = texts.iter().flat_map(|it| it.as_bytes());
            self.entries.extend(bytes);
        }
        Ok(())
    }

    /// The object as a file has it between `obj` and `endobj`: the dictionary, for a stream with Length, and its bytes.
    ///
    /// # Errors
    ///
    /// [`Error::OutOfMemory`] alone.
    pub fn value(&self) -> Result<Vec<u8>, Error> {
        let value = proved::part_value(Global, &self.entries, self.stream.as_deref());
        Ok(value.map_err(refused)?.into_inner())
    }
}

/// Why there are no parts.
#[derive(Debug, Copy, Clone, Eq, PartialEq)]
pub enum PartsError {
    /// A number is 0 or comes twice, or there are more or fewer than [`PdfFont::part_count`].
    InvalidNumbers,
    /// Memory ran out.
    Subset(Error),
}

impl From<Error> for PartsError {
    fn from(error: Error) -> Self {
        Self::Subset(error)
    }
}

impl fmt::Display for PartsError {
    fn fmt(&self, f: &mut fmt::Formatter<'_>) -> fmt::Result {
        match self {
            Self::InvalidNumbers => f.write_str("invalid numbers of objects"),
            Self::Subset(error) => error.fmt(f),
        }
    }
}

#[cfg(feature = "std")]
impl std::error::Error for PartsError {}

impl Role {
    fn of(object: proved::Object) -> Self {
        match object {
            proved::Object::Font => Self::Font,
            proved::Object::CidFont => Self::CidFont,
            proved::Object::FontDescriptor => Self::Descriptor,
            proved::Object::FontFile => Self::Program,
            proved::Object::ToUnicode => Self::ToUnicode,
            proved::Object::CidToGidMap => Self::CidToGidMap,
            proved::Object::CidSet => Self::CidSet,
            proved::Object::Cmap => Self::Encoding,
        }
    }
}

impl PdfFont {
    /// How many objects the font has: 5, and one more with a CIDToGIDMap as a stream, with a CIDSet, and with a CMap of the file's
    /// own.
    pub fn part_count(&self) -> usize {
        proved::part_count(self.view().values)
    }

    /// The font's objects as data, with numbers that the writer chooses: [`part_count`](Self::part_count) of them, distinct and
    /// above 0, the first of the Type 0 font, which pages name. Their order is that of [`objects`](Self::objects).
    ///
    /// ```
    /// use subsetter::pdf::{pdf_font, FontOptions, Shown};
    ///
    /// # fn main() -> Result<(), subsetter::pdf::FontError> {
    /// # let data = include_bytes!("../../tests/data/made.ttf");
    /// let font = pdf_font(data, 0, &[], &[Shown::new(1, "A")], &FontOptions::new())?;
    /// let numbers: Vec<u32> = (12..).step_by(2).take(font.part_count()).collect();
    /// let mut file = Vec::new();
    /// for part in font.parts(&numbers).unwrap() {
    ///     file.extend(format!("{} 0 obj\n", part.number).into_bytes());
    ///     file.extend(part.value().unwrap());
    ///     file.extend(b"\nendobj\n");
    /// }
    /// assert!(file.starts_with(b"12 0 obj\n<< /Type /Font /Subtype /Type0 "));
    /// # Ok(())
    /// # }
    /// ```
    ///
    /// # Errors
    ///
    /// [`PartsError::InvalidNumbers`]: the numbers are others; [`PartsError::Subset`] with [`Error::OutOfMemory`].
    pub fn parts(&self, numbers: &[u32]) -> Result<Vec<Part<'_>>, PartsError> {
        parts_of(self.view().values, numbers)
    }
}

/// The parts of a font that is borrowed.
pub(crate) fn parts_of<'a>(
    values: FontValues<'a>,
    numbers: &[u32],
) -> Result<Vec<Part<'a>>, PartsError> {
    let made = proved::write_parts(Global, values, numbers).map_err(|error| match error {
        proved::PartsError::InvalidNumbers => PartsError::InvalidNumbers,
        proved::PartsError::Subset(error) => refused(error).into(),
    })?;
    let mut parts = super::with_room(made.len())?;
    for it in made.into_inner() {
        let mut strings = super::with_room(it.strings.len())?;
        strings.extend(it.strings.iter().map(|it| it.start..it.end));
        parts.push(Part {
            role: Role::of(it.role),
            number: it.number,
            entries: it.entries.into_inner(),
            strings,
            stream: it.stream.map(Cow::Borrowed),
        });
    }
    Ok(parts)
}
