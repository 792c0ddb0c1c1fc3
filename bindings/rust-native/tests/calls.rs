//! The worked rows by the native library, a font for a PDF, and errors.

#[path = "../../rust/tests/table/words.rs"]
mod words;

use std::collections::HashMap;
use std::fs;
use subsetter_native::{embed, glyphs_of, pdf_font, subset, Codes, Direction, Error, Layout, Options};
use subsetter_native::{Embedded, PdfFont, PdfOptions, Rights};
use words::{bytes, coordinates, numbers, short_numbers};

#[test]
fn each_row_is_answered() {
    let path = concat!(env!("CARGO_MANIFEST_DIR"), "/../../crates/dev_rows/data/subset.txt");
    let (rows, mut known, mut checked) = (fs::read_to_string(path).unwrap(), HashMap::new(), 0);
    for words in rows.lines().map(|it| it.split_whitespace().collect::<Vec<_>>()) {
        if let ["font" | "text", name, digits] = words[..] {
            known.insert(name, bytes(digits));
        }
    }
    for line in rows.lines() {
        let words: Vec<&str> = line.split_whitespace().collect();
        let kind = words.first().copied().unwrap_or("");
        let varies = kind.ends_with("_at");
        if !varies && !kind.ends_with("bounded_options") {
            continue;
        }
        let (font, index, list) = (&known[words[2]], words[3].parse().unwrap(), short_numbers(words[4]));
        let mut at = match coordinates(if varies { words[5] } else { "-" }) {
            Some(at) => at,
            None => continue,
        };
        let [tokens, depth, drop, bound] = [0, 1, 2, 3].map(|it| words[5 + usize::from(varies) + it].parse().unwrap());
        let options = Options { tokens, depth, drop, bytes: bound };
        let behind = &words[9 + usize::from(varies)..];
        // (NaN, the default, where a call at no coordinates is meant)
        if varies && at.is_empty() {
            at.push((*b"none", f32::NAN));
        }
        let found = match kind.starts_with("embed") {
            true => embed(font, index, &at, &list, &options),
            false => {
                subset(font, index, &at, &list, &options).map(|font| Embedded { font, cids: vec![], widths: vec![] })
            }
        };
        let list = |at: usize| behind.get(at).copied().unwrap_or("-");
        let wanted = match behind[0] {
            "0" => Ok(Embedded { font: bytes(behind[1]), cids: short_numbers(list(2)), widths: numbers(list(3)) }),
            status => Err(String::from_utf8_lossy(&known[status]).into_owned()),
        };
        assert!(found.map_err(|error| error.to_string()) == wanted, "{line}");
        checked += 1;
    }
    assert!(checked > 100, "{checked}");
}

const MADE: &[u8] = include_bytes!("../../rust/tests/data/made.ttf");
const SHOWN: [(u16, &str); 4] = [(1, "A"), (5, "fi"), (1, "a"), (8, "Á")];

fn made(options: &PdfOptions) -> PdfFont {
    pdf_font(MADE, 0, &[], &SHOWN, options).unwrap()
}

#[test]
fn a_pdf_font_has_all_its_parts() {
    assert_eq!(glyphs_of(MADE, 0, "AHz"), Ok(vec![1, 9, 0]));
    let font = made(&PdfOptions::default());
    assert!(font.font_name().ends_with("+Made-Regular"));
    assert_eq!((font.cids(), font.codes(), font.text_is_mapped()), (&[1, 2, 1, 3][..], &[1, 2, 1, 3][..], &[1, 1, 0, 1][..]));
    assert_eq!(font.widths()[..4], [500, 667, 556, 667]);
    assert!(font.encoding().is_none() && font.cid_set().is_none() && font.columns().is_empty());
    let numbers = font.numbers();
    assert_eq!((numbers.kind, numbers.bounds, numbers.usage), (0, [0, -147, 952, 928], 2));
    assert_eq!((numbers.italic_angle, numbers.ascent, numbers.descent, numbers.font_weight), (-9400, 905, -212, 400));
    let embedded = embed(MADE, 0, &[], &SHOWN.map(|it| it.0), &Options { drop: 6, ..Options::default() }).unwrap();
    assert_eq!((font.program(), font.cids()), (&embedded.font[..], &embedded.cids[..]));
    let objects = font.objects(4).unwrap();
    assert_eq!(objects.offsets.len(), 5);
    assert!(objects.bytes[objects.offsets[1]..].starts_with(b"5 0 obj\n"));
    assert!(font.objects(1).unwrap().bytes.starts_with(b"1 0 obj\n"));
    assert_eq!(font.objects(u32::MAX), Err(Error::OverflowError));
    let pages = |layout| {
        let sheet = font.sheet(&SHOWN, layout).unwrap();
        String::from_utf8_lossy(&sheet).matches(" Tm\n").count()
    };
    assert_eq!((pages(Layout::Line), pages(Layout::Grid)), (1, 4));
}

#[test]
fn each_choice_is_heeded() {
    let new = PdfOptions::default();
    let vertical = made(&PdfOptions { direction: Direction::Vertical, ..new });
    assert_eq!((vertical.columns()[1].advance, vertical.numbers().default_column), (-1000, [880, -1000]));
    let source = made(&PdfOptions { codes: Codes::Source, cid_set: true, ..new });
    assert_eq!((source.codes(), source.cid_set()), (&[1, 5, 1, 8][..], Some(&[0xf8][..])));
    let (name, cmap) = source.encoding().unwrap();
    assert!(String::from_utf8_lossy(cmap).contains(&format!("/CMapName /{name} def")));
    assert!(String::from_utf8_lossy(&source.objects(1).unwrap().bytes).contains(&format!("/CMapName /{name} ")));
    assert_eq!(made(&PdfOptions { codes: Codes::EachText, ..new }).codes(), [1, 2, 3, 4]);
    assert!(made(&PdfOptions { tag: Some(*b"ZYXWVU"), ..new }).font_name().starts_with("ZYXWVU+"));
    let refused = |options| pdf_font(MADE, 0, &[], &SHOWN, &options).err();
    assert_eq!(refused(PdfOptions { tag: Some(*b"ZYXWVu"), ..new }), Some(Error::UnknownOption));
    let few = Options { bytes: 100, ..Options::default() };
    assert_eq!(refused(PdfOptions { options: few, ..new }), Some(Error::OverflowError));
    let varied = include_bytes!("../../rust/tests/data/made_variable.ttf");
    let program = |at: &[f32]| {
        let at: Vec<_> = at.iter().map(|value| (*b"wght", *value)).collect();
        pdf_font(varied, 0, &at, &SHOWN, &new).unwrap().program().to_vec()
    };
    assert_eq!(program(&[650.0, f32::NAN]), program(&[400.0]));
    assert_ne!(program(&[f32::NAN, 650.0]), program(&[400.0]));
    let slanted = pdf_font(varied, 0, &[(*b"slnt", -65.0 / 65536.0)], &SHOWN, &new).unwrap();
    assert!(slanted.font_name().ends_with("_-0.00099slnt"), "{}", slanted.font_name());
}

#[test]
fn errors_have_the_names_of_their_statuses() {
    let closed = include_bytes!("../../../crates/dev_rows/data/made.otf");
    let made = |rights| pdf_font(closed, 0, &[], &SHOWN, &PdfOptions { rights, ..PdfOptions::default() }).err();
    assert_eq!((made(Rights::FromFont), made(Rights::Held)), (Some(Error::NotPermitted), None));
    let long = "a".repeat(257);
    assert_eq!(pdf_font(MADE, 0, &[], &[(1, &long)], &PdfOptions::default()).err(), Some(Error::InvalidText));
    assert_eq!(subset(MADE, 0, &[], &[], &Options { depth: 256, ..Options::default() }), Err(Error::UnknownOption));
    assert_eq!(glyphs_of(b"no font", 0, "A"), Err(Error::UnknownKind));
    assert_eq!(Error::NotPermitted.to_string(), "embedding not permitted");
}
