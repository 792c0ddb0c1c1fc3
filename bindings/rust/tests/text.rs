//! The calls of `subsetter::pdf::Text`: operators that were worked by hand, and sheets of them.
#![cfg(feature = "variable-fonts")]

mod table;

use subsetter::pdf::{
    glyphs_of, ClusterUnit, Direction, FontError, FontOptions, Item, Order, Rights, Run, RunDirection, ShapedGlyph,
    Text, TextError, TextOptions,
};
use subsetter::{Error, Limits, Tag};
use table::words::{characters, numbers, short_numbers};
use table::{made, rows_of};
use RunDirection::{LeftToRight, RightToLeft, TopToBottom};

fn item(glyph: u16, text: Option<&str>, x_advance: i32) -> Item<'_> {
    Item { glyph, text, x_advance, ..Item::default() }
}

fn operators(run: Result<Run, TextError>) -> String {
    String::from_utf8(run.unwrap().operators).unwrap()
}

/// GLYPH:CHARACTERS:ADVANCE,.. as a glyph, a text and four numbers; of FIRST..LAST each.
fn read_items(word: &str) -> Vec<(u16, Option<String>, Vec<i32>)> {
    let parts: Vec<&str> = word.split(':').collect();
    let mut places: Vec<i32> = parts[2].split(',').map(|it| it.parse().unwrap()).collect();
    places.resize(4, 0);
    let number = |digits: &str| u32::from_str_radix(digits, 16).unwrap();
    let texts: Vec<Option<String>> = match parts[1].split_once("..") {
        Some((first, last)) => (number(first)..=number(last)).map(|it| Some(characters(&format!("{it:x}")))).collect(),
        None => vec![Some(parts[1]).filter(|it| *it != "-").map(characters)],
    };
    texts.into_iter().map(|text| (parts[0].parse().unwrap(), text, places.clone())).collect()
}

/// Each text of `runs.txt`: its runs, and its font.
#[test]
fn runs_are_shown_as_worked_by_hand() {
    let rows = rows_of("runs.txt");
    let firsts: Vec<usize> = (0..rows.len()).filter(|at| rows[*at].starts_with("text ")).collect();
    for (first, end) in firsts.iter().zip(firsts[1..].iter().chain([&rows.len()])) {
        let words: Vec<&str> = rows[*first].split(' ').collect();
        let ((name, weight), choice) = (words[1].split_once('@').unwrap_or((words[1], "")), words[2]);
        let (font, at) = (made(name), weight.parse().map(|it| (Tag::new(b"wght"), it)));
        let order = if choice == "logical" { Order::Logical } else { Order::Visual };
        let direction = if choice == "vertical" { Direction::Vertical } else { Direction::Horizontal };
        let options = TextOptions::new().order(order).direction(direction).own_glyphs(choice == "own");
        let mut text = Text::new(&font, 0, &at.into_iter().collect::<Vec<_>>(), &options).unwrap();
        for row in &rows[first + 1..*end] {
            let (asked, wanted) = row.split_once(" = ").unwrap();
            let direction = match &asked[4..7] {
                "ltr" => LeftToRight,
                "rtl" => RightToLeft,
                _ => TopToBottom,
            };
            let items: Vec<_> = asked.split(' ').skip(2).flat_map(read_items).collect();
            let items = items.iter().map(|(glyph, text, places)| Item {
                x_offset: places[2],
                y_offset: places[3],
                y_advance: places[1],
                ..item(*glyph, text.as_deref(), places[0])
            });
            let found = match text.run(&items.collect::<Vec<_>>(), direction, 12_000) {
                Ok(run) => format!("{} {}", run.advance, String::from_utf8_lossy(&run.operators)).replace('\n', "~"),
                Err(error) => format!("{error:?}"),
            };
            assert!(wanted == "*" || found == wanted, "{row:.200}: {found:.200}");
        }
        let font = text.font(&FontOptions::new().rights(Rights::Held)).unwrap();
        let map: Vec<u8> = short_numbers(words[4]).into_iter().flat_map(u16::to_be_bytes).collect();
        assert_eq!(font.widths(), numbers(words[3]), "{:.30}", rows[*first]);
        assert_eq!(font.cid_to_gid_map().unwrap_or_default(), map, "{:.30}", rows[*first]);
    }
}

/// Without own glyphs the ligature stays whole, as its picture may be another: its width is 556, and a blank says "i".
#[test]
fn glyphs_with_other_pictures_are_no_parts() {
    let plain = made("made.ttf");
    let record = plain.windows(4).position(|it| it == b"vmtx").unwrap();
    for (tag, widths) in [(b"vmtx", [500, 278, 278])].into_iter().chain([b"COLR", b"SVG ", b"CBDT", b"sbix", b"EBDT"].map(|it| (it, [500, 556, 0]))) {
        let mut font = plain.clone();
        font[record..record + 4].copy_from_slice(tag);
        let mut text = Text::new(&font, 0, &[], &TextOptions::new()).unwrap();
        assert!(text.run(&[item(5, Some("fi"), 1139)], LeftToRight, 12_000).is_ok());
        assert_eq!(text.font(&FontOptions::new()).unwrap().widths(), widths, "{tag:?}");
    }
}

/// Glyph 7 without contours, and a glyph without a charstring, which begins where the next one does: with no advance in the run such
/// a glyph is a blank, and the pen needn't go back.
#[test]
fn glyphs_with_an_empty_outline_have_no_ink() {
    for (name, front, place, value, glyph, advance, width) in [
        ("made.ttf", &[0, 1, 0, 200, 5, 220][..], 1, 0, 7, 1366, 333),
        ("made.otf", &[0, 12, 1, 1, 13][..], 10, 0x66, 7, 667, 333),
        ("made_cff2.otf", &[0, 0, 0, 5, 1, 1, 1][..], 8, 0x3d, 3, 500, 250),
    ] {
        let mut font = made(name);
        let shown = |font: &[u8]| {
            let mut text = Text::new(font, 0, &[], &TextOptions::new().own_glyphs(false)).unwrap();
            let line = [item(1, Some("A"), advance), item(glyph, Some("x"), 0)];
            operators(text.run(&line, LeftToRight, 12_000))
        };
        assert_eq!(shown(&font), format!("[<00010002>{width}]TJ\n"), "{name}");
        let at = font.windows(front.len()).position(|it| it == front).unwrap() + place;
        font[at] = value;
        assert_eq!(shown(&font), "[<00010002>]TJ\n", "{name}");
    }
}

#[test]
fn a_later_font_has_the_codes_of_an_earlier_one() {
    let font = made("made.ttf");
    let mut text = Text::new(&font, 0, &[], &TextOptions::new()).unwrap();
    for (glyph, character, widths) in [(1, "A", &[500, 667][..]), (7, "\u{301}", &[500, 667, 333])] {
        text.run(&[item(glyph, Some(character), 1366)], LeftToRight, 12_000).unwrap();
        assert_eq!(text.font(&FontOptions::new()).unwrap().widths(), widths);
    }
    assert_eq!(text.advances(&[0, 5, 7, 11]), Ok(vec![500, 556, 333, 0]));
    assert_eq!(text.advances(&[12]), Err(Error::MalformedFont));
    assert_eq!(text.run(&[], TopToBottom, 12_000), Err(TextError::InvalidText));
}

#[test]
fn columns_go_downwards() {
    let font = made("made.otf");
    let mut text = Text::new(&font, 0, &[], &TextOptions::new().direction(Direction::Vertical)).unwrap();
    let shown = glyphs_of(&font, 0, "A\u{fb01}\u{1f600}").unwrap();
    assert_eq!(operators(text.plain(&shown, 12_000)), "[<000100020003>]TJ\n");
    assert_eq!(text.advances(&[1, 5]), Ok(vec![-1000, -500]));
    assert_eq!(text.run(&[], LeftToRight, 12_000), Err(TextError::InvalidText));
}

#[test]
fn clusters_are_counted_in_three_units() {
    let (font, text) = (made("made.ttf"), "Á\u{1f600}A");
    for (unit, clusters) in
        [(ClusterUnit::Utf8, [0, 2, 6]), (ClusterUnit::Utf16, [0, 1, 3]), (ClusterUnit::Utf32, [0, 1, 2])]
    {
        let mut shown = Text::new(&font, 0, &[], &TextOptions::new().clusters(unit)).unwrap();
        let glyph = |glyph_id, cluster, x_advance| ShapedGlyph { glyph_id, cluster, x_advance, ..ShapedGlyph::default() };
        let mut line = [glyph(8, clusters[0], 1366), glyph(6, clusters[1], 2048), glyph(1, clusters[2], 1366)];
        assert_eq!(operators(shown.shaped(text, &line, LeftToRight, 12_000)), "[<000100020003>]TJ\n", "{unit:?}");
        line[2].cluster -= 1;
        let is_inside = shown.shaped(text, &line, LeftToRight, 12_000) == Err(TextError::InvalidText);
        assert_eq!(is_inside, unit != ClusterUnit::Utf32, "{unit:?}");
    }
}

#[test]
fn errors_and_rights() {
    let limits = Limits::new(1, 1).unwrap();
    let new = |data, limits| Text::new(data, 0, &[], &TextOptions::new().limits(limits)).err();
    assert_eq!(new(b"no font", limits), Some(Error::UnknownKind));
    // `fsType` counts when the font is made.
    let closed = made("made.otf");
    let mut text = Text::new(&closed, 0, &[], &TextOptions::new()).unwrap();
    let line = [item(1, Some("A"), 667), item(1, Some("a"), 667), item(5, Some("fi"), 556)];
    text.run(&line, LeftToRight, 1).unwrap();
    let refused = text.font(&FontOptions::new());
    assert!(matches!(refused, Err(FontError::NotPermitted(_))));
    // The charstring of A again, for "a", and that of the ligature with half of its width, 278 10 hmoveto; last 278 endchar.
    let font = text.font(&FontOptions::new().rights(Rights::Held)).unwrap();
    assert!(font.program().windows(4).any(|it| it == b"\xf7\xaa\x95\x16") && font.program().ends_with(b"\xf7\xaa\x0e"));
    assert_eq!(TextError::InvalidText.to_string(), "invalid text");
    assert_eq!(TextError::from(Error::CFFError).to_string(), Error::CFFError.to_string());
}

#[test]
fn the_metrics_are_those_of_the_coordinates() {
    let font = made("made_variable.ttf");
    let mut text = Text::new(&font, 0, &[(Tag::new(b"wght"), 650.0)], &TextOptions::new()).unwrap();
    text.plain(&glyphs_of(&font, 0, "A").unwrap(), 12_000).unwrap();
    assert_eq!(text.font(&FontOptions::new()).unwrap().widths()[1], 716);
    assert_eq!(text.advances(&[1]), Ok(vec![716]));
}

/// Each run is on a page as long as it, with margins of 36 points. (tests/test_documents.py has readers read examples/shaped.rs.)
#[test]
fn a_sheet_has_a_page_for_each_run() {
    let font = made("made.ttf");
    let mut text = Text::new(&font, 0, &[], &TextOptions::new()).unwrap();
    let runs = ["ABBA", ""].map(|it| text.plain(&glyphs_of(&font, 0, it).unwrap(), 36_000).unwrap());
    let file = text.sheet(&runs, &FontOptions::new()).unwrap();
    let objects = text.font(&FontOptions::new()).unwrap().objects(7).unwrap().bytes;
    for part in [&objects[..], b" Tm\n[<0001000200020001>]TJ\nET\n", b" Tm\nET\n", b"[0 0 169 144]", b"[0 0 72 144]"] {
        assert!(file.windows(part.len()).any(|it| it == part), "{}", String::from_utf8_lossy(part));
    }
}
