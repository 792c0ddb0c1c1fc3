//! Runs of shaped text, and the glyphs that their font has again.

use super::hex;
use crate::proved::cff_repeats::with_repeats;
use crate::proved::pdf_runs::{codes_of, is_mark, is_run, no_pairs, pieces_of_run, Direction, Figure, Item, Piece};
use crate::proved::subsetter_base::Error;
use crate::rattle::alloc::Global;
use std::prelude::v1::*;

/// Header, Name INDEX, a top dict that names CharStrings at 24 and a private dict of 4 bytes at 35, no strings, no subroutines, the
/// charstrings, and the private dict: defaultWidthX 50, nominalWidthX 30.
const TABLE: &str = "01000401 000101010241 0001010106a3118fae12 0000 0000 000201010206 0eef8b160e bd14a915";

#[test]
fn a_glyph_twice_and_a_blank() {
    // CharStrings of glyph 0, glyph 1, a blank of the width 30 - 30, and glyph 1.
    let repeated = hex("00040101 0206080c0e ef8b160e 6d0e ef8b160e");
    let made = |table: &[u8], glyphs: &[Option<u16>]| Ok(with_repeats(Global, table, glyphs)?.into_inner());
    let table = hex(TABLE);
    let new: Vec<u8> = made(&table, &[Some(0), Some(1), None, Some(1)]).unwrap();
    assert!(new.ends_with(&repeated));
    assert!(made(&new, &[0, 1, 2, 3].map(Some)).unwrap().ends_with(&repeated));
    assert_eq!(made(&table, &[Some(0), Some(2)]), Err(Error::MalformedFont));
    assert_eq!(made(&table, &[]), Err(Error::OverflowError));
}

/// Glyph 3 has no ink.
const INKED: [bool; 5] = [true, true, true, false, true];

/// A glyph that goes on along a line.
fn item(glyph: u16, text: Option<&[char]>, x_advance: i32) -> Item<'_> {
    Item { glyph, text, x_advance, y_advance: 0, x_offset: 0, y_offset: 0 }
}

fn piece(figure: Figure, says: Option<char>, x_advance: i32) -> Piece {
    Piece { figure, says, x: 0, y: 0, x_advance, y_advance: 0 }
}

/// A glyph and what it says.
fn glyph(glyph: u16, says: Option<char>, x_advance: i32) -> Piece {
    piece(Figure::Source(glyph), says, x_advance)
}

/// A blank and what it says.
fn blank(says: char) -> Piece {
    piece(Figure::Blank, Some(says), 0)
}

fn is_shown(direction: Direction, items: &[Item<'_>], wanted: &[Piece]) -> bool {
    pieces_of_run(Global, direction, &INKED, items).unwrap().as_slice() == wanted
}

#[test]
fn lines_from_left_to_right() {
    let items = [
        item(36, Some(&['f', 'f', 'i']), 900),
        item(50, Some(&['e', '\u{323}', '\u{301}']), 480),
        item(60, Some(&['\u{915}', '\u{93f}']), 260),
        item(61, None, 700),
        item(70, Some(&['\u{bca}']), 400),
        item(71, None, 500),
        item(61, Some(&['\u{915}', '\u{94d}', '\u{200d}']), 500),
        item(3, None, 0),
        item(3, Some(&[' ']), 250),
        item(80, Some(&['\u{301}', '\u{302}']), 0),
    ];
    let wanted = [
        glyph(36, Some('f'), 900),
        blank('f'),
        blank('i'),
        glyph(50, Some('e'), 480),
        blank('\u{323}'),
        blank('\u{301}'),
        glyph(60, Some('\u{915}'), 260),
        glyph(61, Some('\u{93f}'), 700),
        glyph(70, Some('\u{bca}'), 400),
        glyph(71, None, 500),
        glyph(61, Some('\u{915}'), 500),
        blank('\u{94d}'),
        blank('\u{200d}'),
        glyph(3, Some(' '), 250),
        glyph(80, Some('\u{301}'), 0),
        blank('\u{302}'),
    ];
    assert!(is_shown(Direction::LeftToRight, &items, &wanted));
    assert!(is_run(Direction::LeftToRight, 81, &items));
    assert!(!is_run(Direction::LeftToRight, 80, &items));
    assert!(!is_run(Direction::TopToBottom, 81, &items));
    assert!(!is_run(Direction::LeftToRight, 81, &items[3..]));
}

#[test]
fn lines_from_right_to_left() {
    let items = [
        item(41, Some(&['\u{644}', '\u{64e}', '\u{627}']), 700),
        item(91, Some(&['\u{628}', '\u{64e}']), 0),
        item(90, None, 600),
        item(70, Some(&['a']), 400),
        item(71, None, 500),
        item(80, Some(&['\u{64e}', '\u{651}']), 0),
    ];
    let wanted = [
        glyph(41, Some('\u{627}'), 700),
        blank('\u{64e}'),
        blank('\u{644}'),
        glyph(91, Some('\u{64e}'), 0),
        glyph(90, Some('\u{628}'), 600),
        glyph(70, None, 400),
        glyph(71, Some('a'), 500),
        glyph(80, Some('\u{651}'), 0),
        blank('\u{64e}'),
    ];
    assert!(is_shown(Direction::RightToLeft, &items, &wanted));
}

#[test]
fn codes_are_in_order_of_use() {
    let mut pairs = no_pairs(Global).unwrap();
    let first = [glyph(36, Some('f'), 900), blank('i'), glyph(36, Some('f'), 450), glyph(0, Some('x'), 500)];
    assert_eq!(codes_of(Global, &mut pairs, &first).unwrap().as_slice(), [1, 2, 1, 0]);
    let second = [blank('i'), glyph(36, Some('e'), 900), glyph(36, None, 900)];
    assert_eq!(codes_of(Global, &mut pairs, &second).unwrap().as_slice(), [2, 3, 4]);
}

#[test]
fn marks_are_unicodes() {
    let marks = || (0..0x11_0000).filter(|code| char::from_u32(*code).map_or(false, is_mark));
    let hash = marks().fold(0u32, |hash, code| hash.wrapping_mul(31).wrapping_add(code));
    // as Python's unicodedata 14.0.0 has them
    assert_eq!((marks().count(), hash), (2126, 1_818_070_705));
}
