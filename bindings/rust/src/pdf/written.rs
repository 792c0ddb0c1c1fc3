//! The objects of a PDF file that a font takes.

use super::{characters, taken, Dictionaries, Layout, Objects, PdfFont, References, Shown};
use crate::library::refused;
use crate::proved::pdf_objects as proved;
use crate::rattle::alloc::Global;
use crate::Error;
use alloc::vec::Vec;

impl PdfFont {
    /// The value of W (9.7.4.3): the widths but for those that are the default one.
    ///
    /// # Errors
    ///
    /// [`Error::OutOfMemory`] alone.
    pub fn w(&self) -> Result<Vec<u8>, Error> {
        let text = proved::write_w(Global, self.view().values);
        Ok(text.map_err(refused)?.into_inner())
    }

    /// The value of W2 (9.7.4.3): the columns but for those that are the default one; none where text doesn't run from top to
    /// bottom.
    ///
    /// # Errors
    ///
    /// [`Error::OutOfMemory`] alone.
    pub fn w2(&self) -> Result<Option<Vec<u8>>, Error> {
        let columns = self.view().values.columns;
        if columns.is_none() {
            return Ok(None);
        }
        let text = proved::write_w2(Global, columns);
        Ok(Some(text.map_err(refused)?.into_inner()))
    }

    /// The dictionaries of the font's objects, which have these numbers.
    ///
    /// # Errors
    ///
    /// [`Error::OutOfMemory`] alone.
    pub fn dictionaries(&self, references: &References) -> Result<Dictionaries, Error> {
        let numbers = proved::References {
            cid_font: references.cid_font,
            descriptor: references.descriptor,
            program: references.program,
            to_unicode: references.to_unicode,
            cid_to_gid_map: references.cid_to_gid_map,
            cid_set: references.cid_set,
            encoding: references.encoding,
        };
        let values = self.view().values;
        let made = proved::write_dictionaries(Global, values, numbers);
        let made = made.map_err(refused)?;
        Ok(Dictionaries {
            font: made.font.into_inner(),
            cid_font: made.cid_font.into_inner(),
            descriptor: made.descriptor.into_inner(),
            program: made.program.into_inner(),
            to_unicode: made.to_unicode.into_inner(),
            cid_to_gid_map: made.cid_to_gid_map.map(|it| it.into_inner()),
            cid_set: made.cid_set.map(|it| it.into_inner()),
            encoding: made.encoding.map(|it| it.into_inner()),
        })
    }

    /// The font's objects, whole, with numbers from `first` on, which is above 0 (that isn't checked): the Type 0 font, which pages
    /// name, its CIDFont, the font descriptor, the font program, ToUnicode, CIDToGIDMap if it is a stream, CIDSet if there is one,
    /// and the CMap if the file has its own.
    ///
    /// Streams have no filter, and it is for files that aren't encrypted.
    ///
    /// ```
    /// use subsetter::pdf::{pdf_font, FontOptions, Shown};
    ///
    /// # fn main() -> Result<(), subsetter::pdf::FontError> {
    /// # let data = include_bytes!("../../tests/data/made.ttf");
    /// let font = pdf_font(data, 0, &[], &[Shown::new(1, "A")], &FontOptions::new())?;
    /// let objects = font.objects(4)?;
    /// assert!(objects.bytes.starts_with(b"4 0 obj\n<< /Type /Font /Subtype /Type0 "));
    /// assert_eq!(objects.offsets.len(), 5); // 4 0 obj to 8 0 obj
    /// assert!(objects.bytes[objects.offsets[1]..].starts_with(b"5 0 obj\n"));
    /// # Ok(())
    /// # }
    /// ```
    ///
    /// # Errors
    ///
    /// [`Error::OverflowError`]: seven numbers from `first` on don't fit 32 bits, eight with a CIDToGIDMap as a stream;
    /// [`Error::OutOfMemory`].
    pub fn objects(&self, first: u32) -> Result<Objects, Error> {
        let made = proved::write_objects(Global, self.view().values, first);
        let made = made.map_err(refused)?;
        Ok(Objects {
            bytes: made.text.into_inner(),
            offsets: made.offsets.into_inner(),
        })
    }

    /// A whole PDF file that shows glyphs in 36 points. `shown` are the entries that the font was made of, or the first of
    /// them (that isn't checked).
    ///
    /// ```
    /// use subsetter::pdf::{glyphs_of, pdf_font, FontOptions, Layout};
    ///
    /// # fn main() -> Result<(), subsetter::pdf::FontError> {
    /// # let data = include_bytes!("../../tests/data/made.ttf");
    /// let shown = glyphs_of(data, 0, "ABBA")?;
    /// let font = pdf_font(data, 0, &[], &shown, &FontOptions::new())?;
    /// let file = font.sheet(&shown, Layout::Line)?;
    /// assert!(file.starts_with(b"%PDF-1.7") && file.ends_with(b"%%EOF\n"));
    /// # Ok(())
    /// # }
    /// ```
    ///
    /// # Errors
    ///
    /// [`Error::OverflowError`]: the file would have 10,000,000,000 bytes or more; [`Error::OutOfMemory`].
    pub fn sheet(&self, shown: &[Shown<'_>], layout: Layout) -> Result<Vec<u8>, Error> {
        let characters = characters(shown)?;
        let shown = taken(shown, &characters)?;
        let layout = match layout {
            Layout::Line => proved::Layout::Line,
            Layout::Grid => proved::Layout::Grid,
        };
        let made = proved::write_sheet(Global, self.view(), &shown, layout);
        Ok(made.map_err(refused)?.into_inner())
    }
}
