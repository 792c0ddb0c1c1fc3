//! What the tests in C (`tests/c`) can't see: a panic, lists of no items at any address, and blocks of large alignment.

use crate::buffers::Sizes;
use crate::calls::*;
use crate::fonts_for_pdf::*;
use crate::making::{make, Made};
use crate::whole_fonts::*;
use crate::status::{status_text, version_of, DONE, NO_CMAP, PANICKED, TOO_SMALL};
use fonts::capi::Coordinate;
use fonts::Embedded;
use std::alloc::{alloc, dealloc, realloc, Layout};
use std::cell::Cell;

thread_local! {
    static PANICS: Cell<bool> = const { Cell::new(false) };
}

/// Acts as a fault of the crate: each call runs it where it could panic.
pub fn panic_where_wanted() {
    if PANICS.with(Cell::get) {
        panic!("as the test wants it");
    }
}

/// A font whose only table is `CFF `: one glyph, whose charstring is `endchar` alone. Its subset has 164 bytes.
const FONT: &[u8] = b"OTTO\0\x01\0\x10\0\0\0\0CFF \0\0\0\0\0\0\0\x1c\0\0\0\x1b\x01\0\x04\x01\0\x01\x01\x01\x02A\0\x01\x01\x01\
    \x03\xa0\x11\0\0\0\0\0\x01\x01\x01\x02\x0e";

/// What a call left in the caller's buffers.
#[derive(Debug, PartialEq)]
struct Left {
    status: u32,
    sizes: Sizes,
    out: [u8; 164],
    cids: [u16; 1],
    widths: [u32; 1],
}

/// What each call leaves in buffers of the caller, with lists of no items at an address.
#[rustfmt::skip]
fn in_buffers(address: usize, room: usize) -> Vec<Left> {
    let (font, size) = (FONT.as_ptr(), FONT.len());
    let (glyphs, words, at) = (address as *const u16, address as *const u32, address as *const Coordinate);
    (0..7).map(|call| {
        let mut left = Left { status: 77, sizes: Sizes::NONE, out: [0xa5; 164], cids: [7], widths: [7] };
        let (out, length) = (left.out.as_mut_ptr(), &mut left.sizes.font as *mut usize);
        let (cids, widths, sizes) = (left.cids.as_mut_ptr(), left.widths.as_mut_ptr(), &mut left.sizes as *mut Sizes);
        // SAFETY: the lists have no items but for the font, and the buffers have so much room.
        left.status = unsafe { match call {
            0 => subsetter_subset(font, size, 0, glyphs, 0, out, room, length),
            1 => subsetter_subset_with_limits(font, size, 0, glyphs, 0, 1, 1, out, room, length),
            2 => subsetter_subset_by_words(font, size, 0, glyphs, 0, words, 0, out, room, length),
            3 => subsetter_subset_at_by_words(font, size, 0, at, 0, glyphs, 0, words, 0, out, room, length),
            4 => subsetter_embed(font, size, 0, glyphs, 0, out, room, cids, 1, widths, 1, sizes),
            5 => subsetter_embed_by_words(font, size, 0, glyphs, 0, words, 0, out, room, cids, 1, widths, 1, sizes),
            _ => subsetter_embed_at_by_words(font, size, 0, at, 0, glyphs, 0, words, 0, out, room, cids, 1, widths, 1, sizes),
        } };
        left
    }).collect()
}

/// What each call makes in memory of the library: its status and a size. All is given back.
#[rustfmt::skip]
fn in_memory(address: usize) -> Vec<(u32, usize)> {
    let (font, size) = (FONT.as_ptr(), FONT.len());
    let (glyphs, words, at, ends) = (address as *const u16, address as *const u32, address as *const Coordinate, address as *const usize);
    let mut all: Vec<_> = (0..4).map(|call| {
        let mut made = Made { font_size: 77, cid_count: 77, width_count: 77, ..Made::NOTHING };
        // SAFETY: the lists have no items but for the font; what is given back was made by the library, or is nothing.
        unsafe {
            let status = match call {
                0 => subsetter_make_subset_by_words(font, size, 0, glyphs, 0, words, 0, &mut made),
                1 => subsetter_make_subset_at_by_words(font, size, 0, at, 0, glyphs, 0, words, 0, &mut made),
                2 => subsetter_make_embedded_by_words(font, size, 0, glyphs, 0, words, 0, &mut made),
                _ => subsetter_make_embedded_at_by_words(font, size, 0, at, 0, glyphs, 0, words, 0, &mut made),
            };
            let font_size = made.font_size;
            assert_eq!((made.cid_count, made.width_count), (0, 0));
            subsetter_free(&mut made);
            (status, font_size)
        }
    }).collect();
    let (mut length, mut made, mut objects) = (77, PdfMade::nothing(), ObjectsMade::NOTHING);
    // SAFETY: the same.
    unsafe {
        let found = subsetter_glyphs_of(font, size, 0, words, 0, glyphs as *mut u16, 0, &mut length);
        all.push((found, length));
        let found = subsetter_make_pdf_font_by_words(font, size, 0, at, 0, glyphs, 0, words, 0, ends, 0, words, 0, &mut made);
        all.push((found, made.size()));
        let found = subsetter_make_pdf_objects(&made, 1, &mut objects);
        all.push((found, objects.size()));
        subsetter_free_pdf_objects(&mut objects);
        let found = subsetter_make_pdf_sheet(&made, glyphs, 0, words, 0, ends, 0, 0, &mut objects);
        all.push((found, objects.size()));
        subsetter_free_pdf_objects(&mut objects);
        subsetter_free_pdf_font(&mut made);
        let (mut whole, mut parts, mut units) = (FontMade::nothing(), PartsMade::NOTHING, 0);
        let (empty, buffer, bytes) = (address as *const u8, address as *mut u16, words);
        let found = subsetter_make_font_by_words(font, size, 0, at, 0, glyphs, 0, words, 0, ends, 0, bytes, 0, &mut whole);
        all.push((found, 0));
        let found = subsetter_make_pdf_font_of_utf8_by_words(font, size, 0, at, 0, empty, 0, bytes, 0, &mut whole);
        all.push((found, 0));
        all.push((subsetter_make_pdf_parts(&whole, [1, 2, 3, 4, 5].as_ptr(), 5, &mut parts), subsetter_pdf_part_count(&whole) as usize));
        subsetter_free_pdf_parts(&mut parts);
        let found = subsetter_make_objects(&whole, 1, &mut objects);
        all.push((found, objects.size()));
        subsetter_free_pdf_objects(&mut objects);
        let found = subsetter_make_text_sheet(&whole, address as *const Line, 0, &mut objects);
        all.push((found, objects.size().min(1)));
        subsetter_free_pdf_objects(&mut objects);
        subsetter_free_font(&mut whole);
        length = 0;
        all.push((subsetter_codes_of(glyphs, 0, words, 0, ends, 0, 0, buffer, 0, &mut length), length));
        let found = subsetter_advances_by_words(font, size, 0, at, 0, glyphs, 0, words, 0, buffer, 0, buffer, 0, &mut units);
        all.push((found, units as usize));
        all.push((subsetter_glyph_kinds(font, size, 0, glyphs, 0, address as *mut u32, 0), 0));
    }
    all
}

#[test]
fn no_panic_reaches_the_caller() {
    PANICS.with(|it| it.set(true));
    let (buffers, memory) = (in_buffers(0, 164), in_memory(0));
    PANICS.with(|it| it.set(false));
    for (call, left) in buffers.into_iter().enumerate() {
        let wanted = Left {
            status: PANICKED,
            sizes: Sizes::NONE,
            out: [0xa5; 164],
            cids: [7],
            widths: [7],
        };
        assert_eq!(left, wanted, "call {call}");
    }
    let mut wanted = [(PANICKED, 0); 16];
    // (how many parts there are is counted)
    wanted[10].1 = 5;
    assert_eq!(memory, wanted);
    assert_eq!(
        (PANICKED, &status_text(PANICKED)[..]),
        (u32::MAX, &b"unknown status"[..])
    );
}

/// The font has neither metrics nor characters, so all but the calls that subset it return 2, or 13 where a text is given, and nothing has objects.
#[test]
fn lists_of_no_items_may_be_anywhere() {
    for address in [0, 1, 3, usize::MAX] {
        for (room, status) in [(164, DONE), (163, TOO_SMALL)] {
            for (call, left) in in_buffers(address, room).iter().enumerate() {
                let wanted = if call < 4 { (status, 164) } else { (2, 0) };
                assert_eq!((left.status, left.sizes.font), wanted, "call {call}");
                let is_written = call < 4 && status == DONE;
                assert_eq!(left.out != [0xa5; 164], is_written, "call {call}");
            }
        }
        let made = in_memory(address);
        assert_eq!(
            made[..6],
            [(DONE, 164), (DONE, 164), (2, 0), (2, 0), (NO_CMAP, 0), (2, 0)]
        );
        assert!(made[6].0 == DONE && made[6].1 > 500 && made[7].0 == DONE);
        assert_eq!(made[8..], [(2, 0), (NO_CMAP, 0), (DONE, 5), made[6], (DONE, 1), (DONE, 0), (2, 0), (DONE, 0)]);
    }
}

#[test]
fn a_list_of_no_items_is_null_whatever_room_it_has() {
    let (made, status) = make(Ok(Embedded {
        font: Vec::with_capacity(7),
        cids: Vec::with_capacity(7),
        widths: Vec::with_capacity(7),
    }));
    assert_eq!(status, DONE);
    assert!(made.font.is_null() && made.cids.is_null() && made.widths.is_null());
}

#[test]
fn blocks_have_their_alignment_and_keep_their_bytes() {
    let sizes = [1, 7, 24, 100, 4096, 100_000];
    let aligns = (0..13).map(|power| 1_usize << power);
    for (align, size) in aligns.flat_map(|it| sizes.map(|size| (it, size))) {
        let few = Layout::from_size_align(size, align).unwrap();
        let many = Layout::from_size_align(3 * size, align).unwrap();
        // SAFETY: no layout is of no bytes, and each block has the bytes of its layout until it is given back.
        unsafe {
            // (several, so that one that is aligned by chance isn't all)
            let blocks = [(); 5].map(|()| alloc(few));
            for (number, block) in blocks.into_iter().enumerate() {
                assert!(!block.is_null() && block as usize % align == 0, "{few:?}");
                block.write_bytes(number as u8 + 1, size);
            }
            let larger = blocks.map(|block| realloc(block, few, 3 * size));
            for (number, block) in larger.into_iter().enumerate() {
                assert!(!block.is_null() && block as usize % align == 0, "{many:?}");
                let kept = std::slice::from_raw_parts(block, size);
                assert!(kept.iter().all(|it| *it == number as u8 + 1), "{many:?}");
                block.write_bytes(7, 3 * size);
                block.write_bytes(number as u8 + 1, size);
            }
            for block in larger {
                dealloc(block, many);
            }
        }
    }
}

#[test]
fn each_number_of_a_version_has_eight_bits() {
    let versions = [
        ("0.0.0.0", 0),
        ("1.2.3.4", 0x0102_0304),
        ("10.20.30.40", 0x0a14_1e28),
        ("255.254.199.108", 0xfffe_c76c),
    ];
    for (text, wanted) in versions {
        assert_eq!(version_of(text.as_bytes()), wanted, "{text}");
    }
}
