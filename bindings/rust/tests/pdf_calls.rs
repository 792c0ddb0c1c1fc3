//! Characters, advances, kinds, reasons, and what rows don't say of the calls in `subsetter::pdf`: numbers of 32 bits, each choice.
#![cfg(feature = "variable-fonts")]

mod table;

use subsetter::pdf::{
    advances, advances_with_limits, codes_of, glyphs_of, kinds_of, pdf_font, Advances, Bounds, Codes, Direction,
    FontError, FontOptions, Layout, PartsError, PdfFont, ProgramChoice, Rights, Shown, SubsetTag, Text, TextOptions,
};
use subsetter::{embed_with_options, embed_with_variations_and_options as embed_at, explain, subset_with_options};
use subsetter::{subset_with_variations_and_options as subset_at, Call, Error, GlyphRemapper, Limits, Options, Tag};
use table::words::{bytes, entry, numbers, short_numbers};
use table::{made, rows_of, variations, ERRORS};

const fn shown(glyph: u16, text: &'static str) -> Shown<'static> {
    Shown { glyph, text }
}

const SHOWN: [Shown<'static>; 4] = [shown(1, "A"), shown(5, "fi"), shown(1, "a"), shown(8, "Á")];

// ---- glyphs of a text

/// Each row of `characters.txt`.
#[test]
fn each_character_has_its_glyph() {
    for row in rows_of("characters.txt") {
        let words: Vec<&str> = row.split(' ').collect();
        let entries: Vec<(Option<u16>, String)> = words[5..].iter().map(|it| entry(it)).collect();
        let text: String = entries.iter().map(|it| it.1.as_str()).collect();
        let found = glyphs_of(&made(words[2]), words[3].parse().unwrap(), &text);
        if words[4] == "NoCmap" {
            assert_eq!(found, Err(FontError::NoCmap), "{row}");
            continue;
        }
        let places = numbers(words[4]).into_iter().map(|it| text.char_indices().nth(it as usize).unwrap().0);
        let shown = entries.iter().filter_map(|(glyph, text)| Some(Shown::new((*glyph)?, text)));
        let found = found.unwrap();
        assert_eq!(found.missing(), places.collect::<Vec<_>>(), "{row}");
        assert_eq!(found.into_vec(), shown.collect::<Vec<_>>(), "{row}");
    }
}

// ---- advances and kinds

/// Each row of `advances.txt`.
#[test]
fn advances_are_those_of_the_rows() {
    for row in rows_of("advances.txt") {
        let words: Vec<&str> = row.split(' ').skip(1).collect();
        let number = |at: usize| words[at].parse::<u32>().unwrap();
        let (font, glyphs, at) = (bytes(words[1]), short_numbers(words[3]), variations(words[4]).unwrap());
        let found = match Limits::new(number(5), 64) {
            Some(limits) => advances_with_limits(&font, number(2), &glyphs, &at, &limits),
            None => advances(&font, number(2), &glyphs, &at),
        };
        let wanted = match number(6) as usize {
            0 => Ok(Advances {
                units_per_em: number(7) as u16,
                widths: short_numbers(words[8]),
                heights: short_numbers(words[9]),
            }),
            status => Err(ERRORS[status - 1]),
        };
        assert_eq!(found, wanted, "{}", words[0]);
    }
}

#[test]
fn unknown_axes_are_named_once_in_order() {
    let tags = ["wdth", "wght", "opsz", "wdth", "WGHT"].map(|it| it.parse().unwrap());
    for (font, wanted) in [("made_variable.ttf", &[tags[0], tags[2], tags[4]][..]), ("made.ttf", &[tags[0], tags[1], tags[2], tags[4]])] {
        let made = pdf_font(&made(font), 0, &tags.map(|it| (it, 75.0)), &SHOWN, &FontOptions::new());
        assert_eq!(made.unwrap().unknown_axes(), wanted);
    }
}

/// Each row of `kinds.txt`.
#[test]
fn kinds_are_those_of_the_rows() {
    for row in rows_of("kinds.txt") {
        let words: Vec<&str> = row.split(' ').skip(1).collect();
        let (font, face, glyphs) = (bytes(words[1]), words[2].parse().unwrap(), short_numbers(words[3]));
        let found = kinds_of(&font, face, &glyphs).map(|all| {
            let each = all.iter().map(|it| it.iter().map(|kind| kind.to_string()).collect::<Vec<_>>().join("+"));
            each.collect::<Vec<_>>().join(",")
        });
        let wanted = match words[4].parse().unwrap() {
            0 => Ok(words[5].trim_matches('-').to_string()),
            status => Err(ERRORS[status - 1_usize]),
        };
        assert_eq!(found, wanted, "{}", words[0]);
        for kinds in kinds_of(&font, face, &glyphs).unwrap_or_default() {
            let names: Vec<_> = kinds.iter().map(|it| it.to_string()).collect();
            assert_eq!(kinds.is_unseen(), names.len() > 1 && names.last().unwrap() == "empty", "{}", words[0]);
        }
        // (a face without outlines, and without `cmap`)
        if words[6] == "0" {
            continue;
        }
        assert_eq!(pdf_font(&font, face, &[], &[Shown::new(0, "")], &FontOptions::new()).err(), Some(FontError::BitmapsAlone), "{}", words[0]);
        assert_eq!(glyphs_of(&font, face, "A"), Err(FontError::NoCmap), "{}", words[0]);
    }
}

#[test]
fn entries_that_are_blank_are_listed() {
    let entries = [1, 11, 10, 11].map(|glyph| Shown::new(glyph, "A"));
    for (font, wanted) in [("made_colour.ttf", &[1, 3][..]), ("made.ttf", &[])] {
        assert_eq!(pdf_font(&made(font), 0, &[], &entries, &FontOptions::new()).unwrap().unseen(), wanted);
    }
}

// ---- codes

#[test]
fn codes_need_no_font() {
    let far = [255, 256, 65_535, 256].map(|glyph| Shown::new(glyph, "A"));
    for (codes, wanted, of_far) in [
        (Codes::Consecutive, [1, 2, 1, 3], [1, 2, 3, 2]),
        (Codes::Source, [1, 5, 1, 8], [255, 256, 65_535, 256]),
        (Codes::EachText, [1, 2, 3, 4], [1, 2, 3, 2]),
    ] {
        assert_eq!(plain(&FontOptions::new().codes(codes)).codes(), wanted);
        assert_eq!((codes_of(&SHOWN, codes), codes_of(&far, codes)), (Ok(wanted.to_vec()), Ok(of_far.to_vec())));
    }
}

// ---- the program

#[test]
fn nan_is_the_default_of_the_axis() {
    let font = made("made_variable.ttf");
    let program = |value| pdf_font(&font, 0, &[(Tag::new(b"wght"), value)], &SHOWN, &FontOptions::new()).unwrap().into_program();
    assert!(program(f32::NAN) == program(400.0) && program(f32::NAN) != program(401.0));
}

// ---- choices

#[test]
fn each_choice_leaves_the_others() {
    // Each choice, other than the default.
    let choices: [fn(FontOptions) -> FontOptions; 9] = [
        |it| it.limits(Limits::new(1_000, 9).unwrap()),
        |it| it.hinting(false),
        |it| it.program(ProgramChoice::OpenType),
        |it| it.codes(Codes::Source),
        |it| it.direction(Direction::Vertical),
        |it| it.bounds(Bounds::Kept),
        |it| it.cid_set(true),
        |it| it.tag(SubsetTag::new(b"ZYXWVU").unwrap()),
        |it| it.rights(Rights::Held),
    ];
    for (at, one) in choices.iter().enumerate() {
        let chosen = one(FontOptions::new());
        assert_ne!(chosen, FontOptions::new(), "{at}");
        for (other_at, other) in choices.iter().enumerate() {
            let both = other(chosen);
            assert!((both == chosen) == (at == other_at) && one(both) == both, "{at}, {other_at}");
        }
    }
}

#[test]
fn a_tag_and_limits_are_heeded() {
    let made = |font: &str, options| pdf_font(&made(font), 0, &[], &SHOWN, &options);
    let tag = SubsetTag::new(b"ZYXWVU").unwrap();
    let named = made("made.ttf", FontOptions::new().tag(tag)).unwrap();
    assert_eq!(named.descriptor().font_name, "ZYXWVU+Made-Regular");
    let whole = made("made.ttf", FontOptions::new()).unwrap().into_program();
    let size = whole.len() as u32;
    for bytes in [0, 1, size - 1, size, size + 1, 65_536, 1 << 24, u32::MAX] {
        let options = FontOptions::new().limits(Limits::default().with_most_bytes(bytes));
        let font = made("made.ttf", options).map(|it| it.into_program());
        let wanted = if bytes >= size { Ok(whole.clone()) } else { Err(Error::OverflowError.into()) };
        assert_eq!(font, wanted, "{bytes}");
    }
    for (tokens, depth, is_made) in [(1, 9, false), (1_000, 1, true)] {
        let options = FontOptions::new().limits(Limits::new(tokens, depth).unwrap());
        assert_eq!(made("made_version_1.otf", options).is_ok(), is_made);
    }
}

#[test]
fn tags_have_six_capitals() {
    let tag = SubsetTag::new(b"AZBYCX").unwrap();
    assert_eq!(tag.letters(), b"AZBYCX");
    assert_eq!(format!("{tag} {tag:?}"), "AZBYCX SubsetTag(AZBYCX)");
    assert_ne!(tag, SubsetTag::new(b"AZBYCY").unwrap());
    for at in 0..6 {
        for wrong in [b'a', b'@', b'[', b'0', b' ', 0, 0xc1] {
            let mut letters = *b"AZBYCX";
            letters[at] = wrong;
            assert_eq!(SubsetTag::new(&letters), None, "{at} {wrong}");
        }
    }
}

// ---- objects and sheets

fn plain(options: &FontOptions) -> PdfFont {
    pdf_font(&made("made.ttf"), 0, &[], &SHOWN, options).unwrap()
}

fn position(text: &[u8], part: &[u8]) -> Option<usize> {
    text.windows(part.len()).position(|it| it == part)
}

#[test]
fn objects_have_numbers_of_32_bits() {
    let font = plain(&FontOptions::new().cid_set(true).codes(Codes::Source));
    let last = font.objects(u32::MAX - 7).unwrap();
    assert_eq!(last.offsets.len(), 7);
    assert!(last.bytes[last.offsets[6]..].starts_with(b"4294967294 0 obj\n"));
    for first in [u32::MAX - 6, u32::MAX] {
        assert_eq!(font.objects(first), Err(Error::OverflowError));
    }
}

#[test]
fn parts_have_the_numbers_of_the_writer() {
    let font = plain(&FontOptions::new().cid_set(true).codes(Codes::Source));
    let numbers = [9, u32::MAX, 4, 1, 70, 2, 3];
    let parts = font.parts(&numbers).unwrap();
    let roles = ["Font", "CidFont", "Descriptor", "Program", "ToUnicode", "CidSet", "Encoding"];
    assert_eq!((font.part_count(), parts.len()), (7, 7));
    for ((part, number), role) in parts.iter().zip(numbers).zip(roles) {
        assert_eq!((part.number, format!("{:?}", part.role)), (number, role.to_string()));
        let strings: Vec<_> = part.strings.iter().map(|place| &part.entries[place.clone()]).collect();
        let is_named = role == "CidFont" || role == "Encoding";
        assert_eq!(strings.concat(), if is_named { &b"(Adobe)(Identity)"[..] } else { b"" }, "{role}");
    }
    // These are as many, distinct and above 0.
    for wrong in [&[][..], &[1, 2, 3, 4, 5, 6], &[0, 2, 3, 4, 5, 6, 7], &[1, 2, 3, 4, 5, 6, 1], &[1, 2, 2, 4, 5, 6, 7]] {
        assert_eq!(font.parts(wrong).unwrap_err(), PartsError::InvalidNumbers, "{wrong:?}");
    }
}

#[test]
fn a_sheet_has_the_objects_of_its_font() {
    let font = plain(&FontOptions::new());
    let own = font.objects(5).unwrap().bytes;
    for layout in [Layout::Line, Layout::Grid] {
        let file = font.sheet(&SHOWN, layout).unwrap();
        // The second "a" has the code of "A", so that its text is beside it.
        let parts = [&own[..], b" /Resources << /Font << /F0 5 0 R >> >> ", b"<0002> Tj\n", b"/Span << /ActualText <FEFF0061> >> BDC\n"];
        assert!(file.starts_with(b"%PDF-1.7\n") && parts.iter().all(|it| position(&file, it).is_some()));
        assert_eq!(position(&file, b"[0 0 595 842]").is_some(), layout == Layout::Grid);
    }
    assert_eq!(font.string(&[10, 0xfb23]), Ok(b"<000AFB23>".to_vec()));
}

// ---- errors

#[test]
fn the_first_error_is_answered() {
    let options = FontOptions::new();
    let long = "a".repeat(257);
    let long = [Shown::new(1, &long)];
    let refusal = |font: &[u8], shown: &[Shown]| pdf_font(font, 0, &[], shown, &options).unwrap_err();
    let (font, closed) = (made("made.ttf"), made("made.otf"));
    assert_eq!(refusal(b"no font", &long), Error::UnknownKind.into());
    assert!(matches!(refusal(&closed, &long), FontError::NotPermitted(_)));
    assert_eq!(refusal(&font, &long), FontError::TextTooLong);
    let beyond = [Shown::new(12, "A")];
    assert_eq!(refusal(&font, &beyond), Error::MalformedFont.into());
    assert_eq!(refusal(&changed("made.ttf", "maxp=none"), &SHOWN), Error::MalformedFont.into());
    // 256 units are the most, of which a character beyond 16 bits has two. (Characters that no text keeps don't count.)
    for (count, character, is_made) in [(256, "a", true), (257, "a", false), (128, "\u{1f600}", true), (129, "\u{1f600}", false), (300, "\u{feff}", true)] {
        let text = character.repeat(count);
        let made = pdf_font(&font, 0, &[], &[SHOWN[0], Shown::new(1, &text)], &options);
        assert_eq!(made.err(), if is_made { None } else { Some(FontError::TextTooLong) });
    }
}

/// A made font with other bytes in a table (`OS/2+8=0002`), or with another tag (`glyf=sbix`).
fn changed(name: &str, change: &str) -> Vec<u8> {
    let (mut font, parts) = (made(name), change.split(['+', '=']).collect::<Vec<_>>());
    let record = font.windows(4).position(|it| it == parts[0].as_bytes()).unwrap_or(0);
    let place = u32::from_be_bytes(font[record + 8..record + 12].try_into().unwrap()) as usize;
    let (at, new) = match parts[1..] {
        [at, new] => ((place as isize + at.parse::<isize>().unwrap()) as usize, bytes(new)),
        _ => (record, parts[1..].concat().into_bytes()),
    };
    font[at..at + new.len()].copy_from_slice(&new);
    font
}

/// The text of a refusal and the call with its error; of a call that succeeds `-`, and with each error.
fn asked<T, E: From<Error> + ToString + Copy>(made: Result<T, E>, call: fn(E) -> Call) -> (String, Vec<Call>) {
    match made {
        Ok(_) => ("-".to_string(), ERRORS.iter().map(|it| call((*it).into())).collect()),
        Err(error) => (error.to_string(), vec![call(error)]),
    }
}

/// Each row of `reasons.txt`.
#[test]
fn the_font_shows_why() {
    for row in rows_of("reasons.txt") {
        let words: Vec<&str> = row.splitn(10, ' ').collect();
        let (font, face) = (&changed(words[2], words[4]), words[3].parse().unwrap());
        let mut glyphs: &[u16] = &words[7].parse().map_or((0..=65535).collect(), |it| vec![it]);
        let at: &[(Tag, f32)] = &words[5].parse().map_or(vec![], |it| vec![(Tag::new(b"wght"), it)]);
        let options = &match words[6] {
            "tokens=5" => Options::new().limits(Limits::new(5, 64).unwrap()),
            "most_bytes=9" => Options::new().limits(Limits::default().with_most_bytes(9)),
            "names=no" => Options::new().names(false),
            _ => Options::new(),
        };
        let mapper = &GlyphRemapper::new_from_glyphs(&glyphs[..1]);
        let (mut text, calls) = match words[1] {
            "subset" => asked(subset_with_options(font, face, mapper, options), Call::Subset),
            "embed" => asked(embed_with_options(font, face, glyphs, options), Call::Embed),
            "subset_at" => asked(subset_at(font, face, at, mapper, options), Call::SubsetWithVariations),
            "embed_at" => asked(embed_at(font, face, at, glyphs, options), Call::EmbedWithVariations),
            "pdf_font" => asked(pdf_font(font, face, at, &[shown(glyphs[0], "")], &FontOptions::new()), Call::PdfFont),
            "glyphs_of" => asked(glyphs_of(font, face, "A"), Call::GlyphsOf),
            "text" => {
                glyphs = &[];
                asked(Text::new(font, face, at, &TextOptions::new()), Call::Advances)
            }
            _ => asked(advances(font, face, glyphs, at), Call::Advances),
        };
        for reason in calls.into_iter().filter_map(|it| explain(it, font, face, at, glyphs, options)) {
            text = format!("{text}: {reason}");
            let glyph = reason.glyph().map(|it| format!(": glyph {it}: "));
            assert!(glyph.map_or(!text.contains(": glyph "), |it| text.contains(&it)), "{row}");
            assert_eq!(reason.table().map_or("-".to_string(), |it| it.to_string()).trim_end(), words[8], "{row}");
        }
        assert_eq!(text, words[9]);
    }
    let lacks_a = explain(Call::GlyphsOf(FontError::NoCmap), &changed("made.ttf", "cmap+20=0009000900000064000400480000fffe"), 0, &[], &[], &Options::new());
    assert_eq!(lacks_a.unwrap().to_string(), "cmap: its table in format 4 has 172 bytes, needs 262152");
    let too_long = explain(Call::PdfFont(FontError::TextTooLong), &made("made.ttf"), 0, &[], &[12], &Options::new());
    assert_eq!((too_long.is_none(), FontError::TextTooLong.to_string()), (true, "text too long".to_string()));
}
