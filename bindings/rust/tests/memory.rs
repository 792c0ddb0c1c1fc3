//! Memory: each request of each call is refused in turn. A call that returns a `Result` then returns `OutOfMemory`, keeps
//! nothing and changes nothing, or it does without the memory; a call of 0.2.6 without a `Result` ends the process.

mod heap;
mod table;

use heap::{held, with, with_one_refused};
use std::fmt::Debug;
use subsetter::{embed, embed_with_limits, embed_with_options};
use subsetter::{subset, subset_with_limits, subset_with_options};
use subsetter::{Error, GlyphRemapper, Limits, Options};
use table::table;

/// How many requests of a call may be refused without an error: those for a smaller room, as the larger one is kept then.
const MOST_KEPT: usize = 2;

/// Refuses each request of a call in turn, alone and with all after it: how many requests the call makes. `last` is its
/// answer where none is refused.
fn refuse_each<T: PartialEq + Debug>(call: impl Fn() -> Result<T, Error>, last: &Result<T, Error>) -> usize {
    let requests = refuse_in_turn(|request| with_one_refused(request, &call), last);
    assert!(refuse_in_turn(|request| with(request, &call), last) <= requests);
    requests
}

fn refuse_in_turn<T: PartialEq + Debug>(
    call: impl Fn(usize) -> (Result<T, Error>, bool),
    last: &Result<T, Error>,
) -> usize {
    let mut kept = 0;
    for request in 0.. {
        let before = held();
        let (answer, was_refused) = call(request);
        if !was_refused {
            assert_eq!(answer, *last);
            return request;
        }
        if answer != Err(Error::OutOfMemory) {
            assert_eq!(answer, *last, "request {request}");
            kept += 1;
            assert!(kept <= MOST_KEPT, "request {request}");
        }
        drop(answer);
        assert_eq!(held(), before, "request {request}");
    }
    unreachable!()
}

/// The fonts that reach each kind of table.
const FONTS: [&str; 6] = ["full", "collection", "varied", "font_dicts_unnamed", "one_charstring", "long_glyph"];

#[test]
fn each_request_of_subset_and_embed_may_be_refused() {
    let (fonts, limits, options) = (table().fonts, Limits::default(), Options::new());
    for name in FONTS {
        let (font, mapper) = (&fonts[name], GlyphRemapper::new_from_glyphs(&[0, 1]));
        let answer = subset(font, 0, &mapper);
        let requests = refuse_each(|| subset(font, 0, &mapper), &answer);
        assert!(answer.is_err() || requests > 3, "{name}: {requests}");
        refuse_each(|| subset_with_limits(font, 0, &mapper, &limits), &answer);
        refuse_each(|| subset_with_options(font, 0, &mapper, &options), &answer);
        let answer = embed(font, 0, &[1, 1]);
        refuse_each(|| embed(font, 0, &[1, 1]), &answer);
        refuse_each(|| embed_with_limits(font, 0, &[1, 1], &limits), &answer);
        refuse_each(|| embed_with_options(font, 0, &[1, 1], &options), &answer);
    }
}

#[cfg(feature = "variable-fonts")]
#[test]
fn each_request_of_an_instance_may_be_refused() {
    use subsetter::{embed_with_variations, embed_with_variations_and_options};
    use subsetter::{subset_with_variations, subset_with_variations_and_options, Tag};
    let (font, options) = (&table().fonts["varied"], Options::new());
    let (wght, mapper) = (Tag::new(b"wght"), GlyphRemapper::new_from_glyphs(&[1, 3]));
    let plain = subset(font, 0, &mapper);
    // (with NaN there is a further list)
    for at in [&[(wght, 650.0)][..], &[(wght, f32::NAN), (wght, 650.0)]] {
        let answer = subset_with_variations(font, 0, at, &mapper);
        assert!(answer.is_ok() && answer != plain);
        let requests = refuse_each(|| subset_with_variations(font, 0, at, &mapper), &answer);
        assert!(requests > 10 + at.len(), "{requests}");
        let chosen = || subset_with_variations_and_options(font, 0, at, &mapper, &options);
        refuse_each(chosen, &answer);
        let answer = embed_with_variations(font, 0, at, &[1, 3]);
        refuse_each(|| embed_with_variations(font, 0, at, &[1, 3]), &answer);
        let chosen = || embed_with_variations_and_options(font, 0, at, &[1, 3], &options);
        refuse_each(chosen, &answer);
    }
}

/// The answers of the calls in `subsetter::pdf`, each in a number, as a copy would take memory.
#[cfg(feature = "variable-fonts")]
mod pdf {
    use std::hash::{Hash, Hasher};
    use subsetter::pdf::{
        codes_of, glyphs_of, pdf_font, Codes, Direction, FontError, FontOptions, Item, Layout, PartsError, PdfFont,
        References, RunDirection, ShapedGlyph, Shown, Text, TextError, TextOptions,
    };
    use subsetter::{Error, Tag};

    fn number<T: Hash>(value: &T) -> u64 {
        let mut state = std::collections::hash_map::DefaultHasher::new();
        value.hash(&mut state);
        state.finish()
    }

    fn refused(error: FontError) -> Error {
        match error {
            FontError::Subset(error) => error,
            other => panic!("{other}"),
        }
    }

    const SHOWN: [Shown<'static>; 3] = [Shown { glyph: 1, text: "A" }, Shown { glyph: 5, text: "fi" }, Shown { glyph: 1, text: "" }];

    pub fn made(font: &[u8], options: &FontOptions) -> Result<u64, Error> {
        let made = pdf_font(font, 0, &[(Tag::new(b"wght"), 650.0)], &SHOWN, options).map_err(refused)?;
        let lists = (made.program(), made.codes(), made.text_is_mapped(), made.widths(), made.to_unicode());
        Ok(number(&(lists, made.columns().map(|it| number(&it)), made.encoding().map(|it| number(&it)), made.cid_set())))
    }

    /// The objects, the dictionaries and the sheets of a font.
    pub fn written(font: &PdfFont) -> Result<u64, Error> {
        let references = References { cid_font: 2, descriptor: 3, program: 4, to_unicode: 5, cid_to_gid_map: 0, cid_set: 6, encoding: 7 };
        let sheets = (font.sheet(&SHOWN, Layout::Line)?, font.sheet(&SHOWN, Layout::Grid)?);
        let objects = (font.objects(4)?, font.dictionaries(&references)?, font.string(font.codes())?);
        let numbers = [1, 2, 3, 4, 5, 6, 7];
        let parts = font.parts(&numbers[..font.part_count()]);
        let parts = parts.map_err(|error| match error {
            PartsError::Subset(error) => error,
            other => panic!("{other}"),
        })?;
        let mut values = 0;
        for part in &parts {
            values ^= number(&(part.number, part.value()?));
        }
        Ok(number(&(sheets, objects, values, font.w()?, font.w2()?)))
    }

    /// Runs, and the font for them.
    pub fn text(font: &[u8]) -> Result<u64, Error> {
        let mut text = Text::new(font, 0, &[(Tag::new(b"wght"), 650.0)], &TextOptions::new())?;
        let mut shown = || -> Result<_, TextError> {
            let item = Item { glyph: 5, text: Some("fi"), x_advance: 900, y_offset: 100, ..Item::default() };
            let glyph = ShapedGlyph { glyph_id: 1, x_advance: 900, ..ShapedGlyph::default() };
            let run = text.run(&[item], RunDirection::LeftToRight, 1)?;
            let shaped = text.shaped("B", &[glyph], RunDirection::RightToLeft, 1)?;
            Ok((run, shaped, text.plain(&[Shown::new(1, "A")], 1)?))
        };
        let runs = shown().map_err(|error| match error {
            TextError::Subset(error) => error,
            other => panic!("{other}"),
        })?;
        let font = text.font(&FontOptions::new().cid_set(true)).map_err(refused)?;
        let made = (font.program(), font.to_unicode(), font.widths(), font.cid_to_gid_map(), font.cid_set());
        Ok(number(&(runs, made, text.advances(&[1])?)))
    }

    pub fn of(font: &[u8], options: &FontOptions) -> PdfFont {
        pdf_font(font, 0, &[], &SHOWN, options).unwrap()
    }

    /// Glyphs of a text, and codes of all kinds.
    pub fn glyphs(font: &[u8]) -> Result<u64, Error> {
        let codes = |choice| codes_of(&SHOWN, choice);
        let all = (codes(Codes::Consecutive)?, codes(Codes::Source)?, codes(Codes::EachText)?);
        Ok(number(&(all, glyphs_of(font, 0, "AHxÁ").map_err(refused)?)))
    }

    pub fn options() -> [FontOptions; 3] {
        let new = FontOptions::new();
        [new, new.cid_set(true).codes(Codes::Source), new.codes(Codes::EachText).direction(Direction::Vertical)]
    }
}

#[cfg(feature = "variable-fonts")]
#[test]
fn each_request_of_a_pdf_font_may_be_refused() {
    for name in ["made.ttf", "made_version_1.otf", "made_variable.ttf"] {
        let font = table::made(name);
        let all = |least, call: &dyn Fn() -> Result<u64, Error>| {
            let answer = call();
            let requests = refuse_each(call, &answer);
            assert!(answer.is_ok() && requests > least, "{name}: {requests}");
        };
        for options in pdf::options() {
            all(20, &|| pdf::made(&font, &options));
            let made = pdf::of(&font, &options);
            all(60, &|| pdf::written(&made));
        }
        all(15, &|| pdf::glyphs(&font));
        all(60, &|| pdf::text(&font));
    }
}

#[cfg(feature = "variable-fonts")]
#[test]
fn a_list_of_coordinates_may_be_refused() {
    use subsetter::{subset_with_variations, Tag};
    // Without outlines in `glyf` the list is all that the coordinates take.
    let font = &table().fonts["one_charstring"];
    let mapper = GlyphRemapper::new();
    let call = |at: &[(Tag, f32)]| {
        let answer = subset_with_variations(font, 0, at, &mapper);
        refuse_each(|| subset_with_variations(font, 0, at, &mapper), &answer)
    };
    let wght = Tag::new(b"wght");
    let none = call(&[]);
    assert_eq!(call(&[(wght, 1.0), (wght, 2.0)]), none + 1);
    assert_eq!(call(&[(wght, f32::NAN), (wght, 2.0)]), none + 2);
}

#[test]
fn each_request_of_a_mapper_may_be_refused() {
    let glyphs: Vec<u16> = (0..2000).map(|number| number * 31 % 5000).collect();
    let made = GlyphRemapper::try_from_glyphs(&glyphs);
    let mapper = made.as_ref().unwrap();
    assert!(refuse_each(GlyphRemapper::try_new, &GlyphRemapper::try_new()) > 0);
    assert!(refuse_each(|| GlyphRemapper::try_from_glyphs(&glyphs), &made) > 3);
    let sorted = GlyphRemapper::try_from_glyphs_sorted(&glyphs);
    assert!(refuse_each(|| GlyphRemapper::try_from_glyphs_sorted(&glyphs), &sorted) > 3);
    assert!(refuse_each(|| mapper.try_clone(), &made) > 0);
}

#[test]
fn a_mapper_stays_as_it_was_where_memory_is_refused() {
    let mut mapper = GlyphRemapper::new();
    let mut refusals = 0;
    for glyph in (64..6400).step_by(17) {
        let before = mapper.clone();
        for request in 0.. {
            let (answer, was_refused) = with(request, || mapper.try_remap(glyph));
            if !was_refused {
                assert_eq!(answer, Ok(before.num_gids()));
                break;
            }
            assert_eq!(answer, Err(Error::OutOfMemory));
            assert_eq!((&mapper, mapper.get(glyph)), (&before, None));
            refusals += 1;
        }
        // A known glyph takes no memory.
        assert_eq!(with(0, || mapper.try_remap(glyph)).0, Ok(before.num_gids()));
    }
    assert!(refusals > 10, "{refusals}");
}

// ---- the calls of 0.2.6

/// Refuses the first request of a call alone, so that a panic, which takes memory itself, would be seen as one.
#[test]
#[ignore = "run by another test"]
fn call_without_memory() {
    let (mut mapper, call) = (GlyphRemapper::new(), std::env::var("CALL").unwrap());
    println!("calls");
    with_one_refused(0, || match &*call {
        "new" => drop(GlyphRemapper::new()),
        "default" => drop(GlyphRemapper::default()),
        "new_from_glyphs" => drop(GlyphRemapper::new_from_glyphs(&[1])),
        "new_from_glyphs_sorted" => drop(GlyphRemapper::new_from_glyphs_sorted(&[1])),
        "clone" => drop(mapper.clone()),
        _ => drop(mapper.remap(9999)),
    });
    println!("goes on");
}

#[cfg(unix)]
#[test]
fn without_memory_the_mappers_of_0_2_6_end_the_process() {
    use std::os::unix::process::ExitStatusExt;
    use std::{env, process::Command};
    let words = "--exact call_without_memory --ignored --nocapture --test-threads=1";
    for call in ["new", "default", "new_from_glyphs", "new_from_glyphs_sorted", "clone", "remap"] {
        let mut command = Command::new(env::current_exe().unwrap());
        command.args(words.split(' ')).env("CALL", call);
        let output = command.output().unwrap();
        let printed = String::from_utf8(output.stdout).unwrap();
        let said = String::from_utf8(output.stderr).unwrap();
        let ended = printed.contains("calls") && !printed.contains("goes on");
        assert!(ended, "{call}: {printed}");
        // (the request that is named is one of a glyph's number)
        assert!(said.contains("memory allocation of 2 bytes failed"), "{call}: {said}");
        assert!(!said.contains("panicked"), "{call}: {said}");
        assert_eq!(output.status.signal(), Some(6), "{call}: {said}");
    }
}
