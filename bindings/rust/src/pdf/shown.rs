//! The glyphs in use.

use alloc::vec::Vec;
use core::ops::Deref;

/// A glyph in use, and its text.
#[derive(Debug, Copy, Clone, Eq, PartialEq, Hash)]
pub struct Shown<'a> {
    /// The number of the glyph in the font.
    pub glyph: u16,
    /// Its text: none, a character, or several (a ligature).
    pub text: &'a str,
}

impl<'a> Shown<'a> {
    /// A glyph with its text.
    pub fn new(glyph: u16, text: &'a str) -> Self {
        Self { glyph, text }
    }
}

/// The glyphs of a text: a list of [`Shown`], and what the font lacks.
#[derive(Debug, Clone, Eq, PartialEq, Hash)]
pub struct TextGlyphs<'a> {
    shown: Vec<Shown<'a>>,
    missing: Vec<usize>,
}

impl<'a> TextGlyphs<'a> {
    pub(crate) fn new(shown: Vec<Shown<'a>>, missing: Vec<usize>) -> Self {
        Self { shown, missing }
    }

    /// Where the characters begin in the text that the font lacks, in order: controls, which have no entry, and those whose entry
    /// has glyph 0.
    pub fn missing(&self) -> &[usize] {
        &self.missing
    }

    /// The list alone.
    pub fn into_vec(self) -> Vec<Shown<'a>> {
        self.shown
    }
}

impl<'a> Deref for TextGlyphs<'a> {
    type Target = [Shown<'a>];

    fn deref(&self) -> &[Shown<'a>] {
        &self.shown
    }
}
