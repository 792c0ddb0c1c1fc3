//! What the words of `subsetter_options` choose.

use fonts::capi::pdf::FontChoices;
use fonts::capi::Choices;

/// The numbers of `subsetter_subset`: how many tokens, and how deep.
const TOKENS: u32 = 1_000_000;
const DEPTH: u32 = 64;

/// A word by its position; one past the end is 0.
fn word(words: &[u32], at: usize) -> u32 {
    words.get(at).copied().unwrap_or(0)
}

/// 0 means the default.
fn or_default(number: u32, usual: u32) -> u32 {
    if number == 0 {
        usual
    } else {
        number
    }
}

/// The choices of these words: the size in bytes of all of them, tokens, depth, what is dropped, and the most bytes of the new
/// font. None where the library doesn't know them.
pub fn choices(words: &[u32]) -> Option<Choices> {
    let count = words.len();
    if count > 5 || word(words, 0) as usize != 4 * count {
        return None;
    }
    let tokens = or_default(word(words, 1), TOKENS);
    let depth = u8::try_from(or_default(word(words, 2), DEPTH)).ok()?;
    let drop = word(words, 3);
    if drop > 7 {
        return None;
    }
    let limited = Choices::new(tokens, depth)?;
    let bounded = match word(words, 4) {
        0 => limited,
        bytes => limited.with_bytes(bytes),
    };
    Some(bounded.keeping(drop & 1 == 0, drop & 2 == 0, drop & 4 == 0))
}

/// How many words `subsetter_pdf_options` has.
const PDF_WORDS: usize = 14;

/// The choices of the words of `subsetter_pdf_options`: those of `subsetter_options`, and further ones. None where the library
/// doesn't know them.
pub fn font_choices(words: &[u32]) -> Option<FontChoices> {
    if words.len() > PDF_WORDS || word(words, 0) as usize != 4 * words.len() {
        return None;
    }
    if word(words, 13) > 1 {
        return None;
    }
    let own = [1, 2, 3, 4].map(|at| word(words, at));
    let [tokens, depth, drop, bytes] = own;
    let further = [5, 6, 7, 8, 9, 10, 11, 12].map(|at| word(words, at));
    FontChoices::new(&choices(&[20, tokens, depth, drop, bytes])?, further)
}

/// Whether the words of `subsetter_pdf_options` leave own glyphs to be made.
pub fn makes_own(words: &[u32]) -> bool {
    word(words, 13) == 0
}
