//! Charstrings and `CFF2` tables at coordinates. The expected bytes are worked out by hand from the formats; fontTools, HarfBuzz and
//! FreeType read both sides of the tables.

use super::hex;
use crate::proved::subsetter_base::error::Error;
use crate::proved::subsetter_base::write::Writer;
use crate::proved::subsetter_blend::resolving::resolve;
use crate::proved::subsetter_blend::runs::machine::Subroutines;
use crate::proved::subsetter_cff2::private_dicts::private_at::write_private_at;
use crate::proved::subsetter_cff2::selection::select::font_dict_number;
use crate::proved::subsetter_cff2::table::open;
use crate::proved::subsetter_cff2::variation::{optional_store_at, FontVariation};
use crate::proved::subsetter_cff_at::making::make_table;
use crate::proved::subsetter_cff_at::request::TableRequest;
use crate::proved::subsetter_cffdata::indexes::index::Index;
use crate::proved::subsetter_type2::limits::Limits;
use crate::proved::subsetter_type2::subroutines::SubroutineHandler;
use crate::rattle::alloc::Global;
use std::prelude::v1::*;

/// One empty glyph, one font dict with an empty private dict, nothing that varies.
const LEAST: &str = "020005000d1d00000016111d0000001d0c2400000000000000010101010000000101010c1d000000001d0000001d12";

/// Its table. The scale of FontMatrix is 0.001, as `unitsPerEm` is 1000; the last three bytes are the one charstring, 500 endchar.
const LEAST_MADE: &str = "\
    010004040001010109496e7374616e6365000101013cf81bf81c8b0c1e1e0a001f8b8b1e0a001f8b8b0c078b8b8b8b051d000000660f1d00\
    000081111d0000ffff0c221d000000690c241d000000670c2500020101060e41646f62654964656e74697479000000000000010101148c8b\
    8b8c8b8b0c071d000000001d00000067120001010104f8880e";

/// A square that moves and grows with its one axis, after an empty glyph.
const SQUARE: &str = "\
    02000500131d0000003c111d0000001c181d0000005c0c2400000000001e00010000000c0001000000160001000100004000400000000000\
    000100000000000201010119efbd8c108b15f7c0f08c1006f950928c1007fbc0268c10060000000101010c1d000000001d0000005c12";

/// Six glyphs, three font dicts by FDSelect of format 4, two regions in two item variation data, blends in private dicts.
const THREE_DICTS: &str = "\
    020005001a1d00000085111d0000002a181d000001210c241d0000005e0c2500000001010105928c10070032000100000010000200000020\
    0000002800010002000040004000c000c0000000000000000001000000000000000200000001040000000500000000000000000001000100\
    00000300020000000400000000000500020000000600000006010101101829353eefbd8c108b15200af950201dfbc006bd16210a200a2706\
    efbd778c108b15f7c0f04f8c1006f95007ef8b15f7c006f95007fbc0068b16959fa9b3bdc7088195f87e9a06db0a1d0000000e1300000001\
    010107f7c0f08c10067f97f8889a858b968e8f1706dbb48c170bac0c0a1d0000001a130000000201010709f75cd28c1006ef078c16c79484\
    8c170a1ea0375f0c090000000301010c17221d0000000e1d000000ce121d0000001a1d000000e9121d0000000e1d0000011312";

/// Its FDSelect in format 3.
const SELECT_3: &str = "0300050000000001010003020004000005020006";

/// Five glyphs over three regions: without `vsindex`, and with it for data of two, none and three of them.
const FOUR_DATA: &str = "\
    02000500131d00000070111d0000001c181d000000d00c2400000000005200010000001800040000002e0000003600000040000000460001\
    0003000040004000c000c0000000000020004000000000000001000000000000000200000001000000000000000000000003000100020000\
    00000005010101132d3c56efbd8c108b15f7c0f08c1006f950928c10078c0feff75cbd6d77b38d1015f7c0f04f8c1006f950928e8c10078d\
    0feff75c8d1015f7c08c10f824058e0fef959fa98c1016f7c063bdc78c10f82445db318c100527070000000101010c1d000000001d000000\
    d012";

/// Two empty glyphs, and one font dict; FDSelect gives the second glyph another.
const ONE_DICT_OF_TWO: &str = "\
    02000500141d0000001d111d000000250c241d000000370c250000000000000002010101010000000101010c1d000000001d000000371200\
    0001";
/// The flat charstring of a font of one region, which counts at a coordinate from 0 up to 16384.
fn at(coordinate: i32, advance: i16, charstring: &[u8]) -> Result<Vec<u8>, Error> {
    let square = hex(SQUARE);
    let table = open(&square, 1).unwrap();
    let variation = FontVariation { variation: optional_store_at(Global, table.store, &[coordinate])? };
    let none = || SubroutineHandler::new(Index::default());
    let subroutines = Subroutines { global: none(), local: none() };
    let flat = resolve(Global, &subroutines, &variation, &Limits::default(), 0, advance, charstring)?;
    Ok(flat.into_inner())
}

#[test]
fn short_flexes_are_opened() {
    let flex1 = "959f15 9f95908e8f8d9191909d958c 9f8b8b8b8b8b8b8b8b8b96 10 0c25";
    for (coordinate, charstring, flat) in [
        (8192, "959f15 959f90a99394978e8c8a8d898e8892 10 0c22", "f8ec 959f15 978b9f90aa8b928b9686958bbd 0c23 0e"),
        (0, flex1, "f8ec 959f15 9f95908e8f8d9191909d9564bd 0c23 0e"),
        (8192, flex1, "f8ec 959f15 a09f908e8f8d9191909d6295bd 0c23 0e"),
    ] {
        assert_eq!(at(coordinate, 600, &hex(charstring)), Ok(hex(flat)));
    }
}

/// `count` pairs of operands between other bytes.
fn spelt(front: &[u8], count: usize, back: &[u8]) -> Vec<u8> {
    [front, &[0x8c, 0x8d].repeat(count), back].concat()
}

#[test]
fn long_operators_are_split() {
    for (front, count, back, first, middle, last) in [
        // 50 of rlineto
        ("8b16", 25, "05", 23, "05", "05"),
        // 49 of hvcurveto
        ("8b16", 24, "8e1f", 20, "1f", "8e1f"),
        // 50 of rcurveline, and of rlinecurve
        ("8b16", 25, "18", 21, "08", "18"),
        ("8b16", 25, "19", 20, "05", "19"),
        // 49 of hhcurveto
        ("8b168e", 24, "1b", 22, "1b", "1b"),
    ] {
        let split = spelt(&hex(&std::format!("f888{front}")), first, &hex(middle));
        let split = [split, spelt(&[], count - first, &hex(last)), std::vec![0x0e]].concat();
        assert_eq!(at(8192, 500, &spelt(&hex(front), count, &hex(back))), Ok(split), "{back}");
    }
}

#[test]
fn many_stems_are_split() {
    // 24 stems, and the width
    let stems = "958d".repeat(24) + "018b16";
    let split = "f888".to_string() + &"958d".repeat(23) + "01 f7b28d 01 8b16 0e";
    assert_eq!(at(8192, 500, &hex(&stems)), Ok(hex(&split)));
    // 26 stems, 25 of them before the mask
    let masked = spelt(&hex("958d12"), 25, &hex("13ffffffc0"));
    let split = spelt(&hex("f888958d12"), 23, &hex("17 d18d8c8d 13ffffffc0 0e"));
    assert_eq!(at(8192, 500, &masked), Ok(split));
}

#[test]
fn wrong_charstrings_are_refused() {
    // vsindex after a blend; three operands of rmoveto; operands of a later mask; 514 numbers
    let many = "8b".repeat(514);
    for charstring in ["efbd8c108b0f16", "8c8d8e15", "959f1213808c8d1380", &many] {
        assert_eq!(at(8192, 0, &hex(charstring)), Err(Error::CFFError), "{charstring}");
    }
    // no events; stems, a first mask and a second one
    for charstring in ["", "959f1213801340"] {
        assert_eq!(at(8192, 500, &hex(charstring)), Ok(hex(&std::format!("f888{charstring}0e"))));
    }
}

/// The table of glyphs in full.
fn made(
    bytes: &str,
    coordinates: &[i32],
    glyphs: &[Option<u16>],
    units_per_em: u16,
    limits: Limits,
) -> Result<Vec<u8>, Error> {
    let request = TableRequest { coordinates, glyphs, units_per_em };
    let table = make_table(Global, &hex(bytes), &request, limits)?.pieces;
    Ok([table.front.as_slice(), table.char_strings.as_slice()].concat())
}

/// Whether a part is somewhere in a table.
fn has(table: &[u8], part: &str) -> bool {
    let part = hex(part);
    table.windows(part.len()).any(|it| it == part)
}

#[test]
fn the_least_table_is_made() {
    let least = |units| made(LEAST, &[], &[Some(500)], units, Limits::default()).unwrap();
    assert_eq!(least(1000), hex(LEAST_MADE));
    // 0.00048828125, twice.
    assert!(has(&least(2048), "1e0a000488 28125f 8b8b"));
}

#[test]
fn vsindex_names_the_data_of_a_glyph() {
    // The regions count 0.25, 0 and 0.5, or 0, 0.5 and 0.
    let texts_at_a_quarter = "f8880e f8a1f7058b15f7d906f952070e f8a9f705f75715f7d906f952070e f888eff75c15f7c0f824050e \
        f8bdf70a16f7e8f8360527070e";
    let texts_at_minus_a_half = "f8880e f888ef8b15f7c006f950070e f892e0f77015f7a206f952070e f888eff75c15f7c0f824050e \
        f888f416f7acf8010527070e";
    for (at, widths, texts) in [
        (4096, [500, 525, 533, 500, 553], texts_at_a_quarter),
        (-8192, [500, 500, 510, 500, 500], texts_at_minus_a_half),
    ] {
        let table = made(FOUR_DATA, &[at], &widths.map(Some), 1000, Limits::default()).unwrap();
        assert!(table.ends_with(&hex(texts)), "{at}");
    }
}

#[test]
fn font_dicts_are_those_of_the_glyphs() {
    // Glyphs 0, 1 and 3 have the font dicts 0, 1 and 2. Glyph 1 blends in a local and a global subroutine.
    let glyphs = [Some(500), Some(510), None, Some(500), None, None];
    let table = made(THREE_DICTS, &[8192], &glyphs, 1000, Limits::default()).unwrap();
    assert!(table.ends_with(&hex("f892f7118b15f78006f95407fbc0060e 0e f888f7118b15f7f306f950070e 0e 0e")));
    // The private dicts, and FDSelect after them. Of the second -12 12 500 15 with -6 0 11 3: the edges -15, -3, 502.5, 519; 80 with
    // 41: 100.5. Of the third 60 with 9 and -7 by two regions: 64.5; BlueScale is a real, 0.0375.
    let privates = "8195f87e9a06db0a 7c97f88e9b06f00b ac0c0acc0a1e0a0375ff0c09 00 00 01 00 02 00 00";
    assert!(has(&table, privates));
}

#[test]
fn glyphs_have_font_dicts() {
    let (three, select) = (hex(THREE_DICTS), hex(SELECT_3));
    let table = open(&three, 1).unwrap();
    for (glyph, number) in (0..7).zip([Some(0), Some(1), Some(1), Some(2), Some(0), Some(2), None]) {
        assert_eq!(font_dict_number(table.bytes, table.select, glyph), number);
        assert_eq!(font_dict_number(&select, Some(0), glyph), number);
    }
}

#[test]
fn wrong_private_dicts_are_refused() {
    let three = hex(THREE_DICTS);
    let table = open(&three, 1).unwrap();
    let store = optional_store_at(Global, table.store, &[8192]).unwrap();
    let written = |dict, store| write_private_at(Global, &hex(dict), store, &mut Writer::new(Global)).err();
    assert_eq!(written("efbd8c170b", &store), None);
    assert_eq!(written("efbd8c170b", &None), Some(Error::MalformedFont));
    // A blend with too few operands; a vsindex after a blend, and one of data that aren't there.
    for dict in ["bd8c170b", "efbd8c170b8b16", "8d16"] {
        assert_eq!(written(dict, &store), Some(Error::MalformedFont), "{dict}");
    }
}

#[test]
fn wrong_tables_are_refused() {
    let (limits, other) = (Limits::default(), std::format!("01{}", &SQUARE[2..]));
    let both: &[Option<u16>] = &[Some(500), Some(551)];
    let (malformed, overflow) = (Some(Error::MalformedFont), Some(Error::OverflowError));
    for (bytes, glyphs, limits, error) in [
        // Another major version, another number of axes, a glyph that isn't there.
        (&*other, both, limits, malformed),
        (LEAST, &[None], limits, malformed),
        (SQUARE, &[Some(500), Some(551), Some(551)], limits, malformed),
        // A font dict that isn't there, of the second glyph alone.
        (ONE_DICT_OF_TWO, &[Some(500), None], limits, None),
        (ONE_DICT_OF_TWO, both, limits, malformed),
        // An advance past the numbers of a charstring.
        (SQUARE, &[Some(500), Some(32768)], limits, overflow),
        // As many bytes as both charstrings have, and one fewer.
        (SQUARE, both, limits.with_bytes(19), None),
        (SQUARE, both, limits.with_bytes(18), overflow),
    ] {
        assert_eq!(made(bytes, &[8192], glyphs, 1000, limits).err(), error);
    }
}
