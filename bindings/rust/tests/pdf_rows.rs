//! Each row of `pdf.txt`, field by field.
#![cfg(feature = "variable-fonts")]

mod table;

use subsetter::pdf::{pdf_font, FontError, FontOptions, Objects, Part, PdfFont, Permission, References};
use subsetter::pdf::{Bounds, Codes, Direction, ProgramChoice, Rights, Shown, Usage};
use subsetter::Tag;
use table::made;
use table::words::entry;

/// A row: what is asked, and the fields of the answer with their values.
struct PdfRow {
    name: String,
    font: Vec<u8>,
    coordinates: Vec<(Tag, f32)>,
    shown: Vec<(u16, String)>,
    options: FontOptions,
    fields: Vec<(String, String)>,
}

impl PdfRow {
    /// The value of a field.
    fn wanted(&self, field: &str) -> Option<&str> {
        let mut found = self.fields.iter().filter(|(name, _)| name == field);
        found.next().map(|(_, value)| value.as_str())
    }
}

fn coordinates(words: &str) -> Vec<(Tag, f32)> {
    let one = |word: &str| {
        let (tag, value) = word.split_once('=').unwrap();
        (tag.parse().unwrap(), value.parse().unwrap())
    };
    let words = words.split(',').filter(|it| *it != "-");
    words.map(one).collect()
}

fn chosen(options: FontOptions, word: &str) -> FontOptions {
    match word {
        "direction=Vertical" => options.direction(Direction::Vertical),
        "codes=Source" => options.codes(Codes::Source),
        "codes=EachText" => options.codes(Codes::EachText),
        "bounds=Kept" => options.bounds(Bounds::Kept),
        "program=OpenType" => options.program(ProgramChoice::OpenType),
        "rights=Held" => options.rights(Rights::Held),
        "cid_set" => options.cid_set(true),
        _ => panic!("no option: {word}"),
    }
}

/// The fields of a row, whose name is first.
fn row(fields: Vec<(String, String)>) -> PdfRow {
    let value = |name: &str| {
        let found = fields.iter().find(|(field, _)| field == name);
        found.unwrap_or_else(|| panic!("no {name}")).1.as_str()
    };
    let without_hinting = FontOptions::new().hinting(false);
    let words = value("options").split_whitespace();
    PdfRow {
        name: value("row").to_string(),
        font: made(value("font")),
        coordinates: coordinates(value("coordinates")),
        shown: value("shown").split_whitespace().map(entry).map(|(glyph, text)| (glyph.unwrap(), text)).collect(),
        options: words.fold(without_hinting, chosen),
        fields: fields[5..].to_vec(),
    }
}

fn pdf_rows() -> Vec<PdfRow> {
    let text = String::from_utf8(made("pdf.txt")).unwrap();
    let field = |line: &str| {
        let (name, value) = line.split_once(' ').unwrap_or((line, ""));
        (name.to_string(), value.replace('~', "\n"))
    };
    let fields = |block: &str| -> Vec<(String, String)> {
        let lines = block.lines().filter(|it| !it.is_empty() && !it.starts_with('#'));
        lines.map(field).collect()
    };
    let blocks = text.split("\n\n").map(fields);
    blocks.filter(|it| !it.is_empty()).map(row).collect()
}

fn answer(row: &PdfRow) -> Result<PdfFont, FontError> {
    let shown: Vec<Shown> = row.shown.iter().map(|(glyph, text)| Shown::new(*glyph, text)).collect();
    pdf_font(&row.font, 0, &row.coordinates, &shown, &row.options)
}

fn hexadecimal(bytes: &[u8]) -> String {
    bytes.iter().map(|byte| format!("{byte:02x}")).collect()
}

fn words<T: ToString>(items: impl IntoIterator<Item = T>) -> String {
    let words: Vec<String> = items.into_iter().map(|it| it.to_string()).collect();
    words.join(" ")
}

/// Thousandths as a number with at most three decimals.
fn thousandths(number: i32) -> String {
    format!("{:.3}", f64::from(number) / 1000.0).trim_end_matches('0').trim_end_matches('.').to_string()
}

fn permission(permission: Permission) -> String {
    let usage = match permission.usage {
        Usage::Unsaid => "unsaid",
        Usage::Installable => "installable",
        Usage::Editable => "editable",
        Usage::PreviewAndPrint => "preview_and_print",
        Usage::Restricted => "restricted",
    };
    format!("{usage} subsetting {} outlines {}", u8::from(permission.subsetting), u8::from(permission.outlines))
}

/// The columns of all CIDs, of which those that no string shows have none.
fn columns(font: &PdfFont) -> Option<String> {
    let columns = font.columns()?;
    let known = columns.each.iter().map(|it| format!("{},{},{}", it.advance, it.x, it.y));
    let unknown = columns.each.len()..usize::from(font.glyph_count());
    Some(words(known.chain(unknown.map(|_| "-".to_string()))))
}

/// The fields of an answer as a row has them; a field that isn't there is left out.
fn said(font: &PdfFont) -> Vec<(&'static str, String)> {
    let values = font.descriptor();
    let text = |bytes: &[u8]| String::from_utf8(bytes.to_vec()).unwrap();
    let or_none = |it: Option<String>| it.unwrap_or_else(|| "-".to_string());
    let mut fields = vec![
        ("kind", format!("{:?}", font.kind()).replace("BareCff", "CIDFontType0C")),
        ("program", hexadecimal(font.program())),
        ("glyph_count", font.glyph_count().to_string()),
        ("cids", words(font.cids())),
        ("codes", words(font.codes())),
        ("is_said", words(font.text_is_mapped().iter().map(|it| u8::from(*it)))),
        ("widths", words(font.widths())),
        ("default_width", font.default_width().to_string()),
        ("name", values.font_name.to_string()),
        ("flags", values.flags.to_string()),
        ("angle", thousandths(values.italic_angle)),
        ("ascent", values.ascent.to_string()),
        ("descent", values.descent.to_string()),
        ("cap_height", values.cap_height.to_string()),
        ("x_height", or_none(values.x_height.map(|it| it.to_string()))),
        ("stem_v", values.stem_v.to_string()),
        ("font_weight", values.font_weight.to_string()),
        ("bounds", words(values.bounds)),
        ("permission", permission(font.permission())),
        ("cid_set", or_none(font.cid_set().map(hexadecimal))),
        ("to_unicode", text(font.to_unicode())),
        ("w", text(&font.w().unwrap())),
    ];
    fields.extend(font.w2().unwrap().map(|it| ("w2", text(&it))));
    fields.extend(font.encoding().map(|it| ("encoding", text(it.text))));
    fields.extend(columns(font).map(|it| ("columns", it)));
    fields.extend(font.columns().map(|it| ("dw2", words(it.default))));
    fields
}

/// The bytes of the streams among the objects, by the number in the list.
fn streams(font: &PdfFont) -> Vec<(usize, &[u8])> {
    let further = [font.cid_set(), font.encoding().map(|it| it.text)];
    let all = [Some(font.program()), Some(font.to_unicode())].into_iter().chain(further).flatten();
    (3..).zip(all).collect()
}

/// The objects from a number on, of which these are the dictionaries.
fn objects(font: &PdfFont, first: u32, dictionaries: &[&str]) -> Objects {
    let mut wanted = Objects { bytes: Vec::new(), offsets: Vec::new() };
    for (at, dictionary) in dictionaries.iter().enumerate() {
        wanted.offsets.push(wanted.bytes.len());
        let front = format!("{} 0 obj\n{dictionary}\n", first as usize + at);
        wanted.bytes.extend(front.bytes());
        if let Some((_, stream)) = streams(font).iter().find(|it| it.0 == at) {
            wanted.bytes.extend(b"stream\n");
            wanted.bytes.extend(*stream);
            wanted.bytes.extend(b"\nendstream\n");
        }
        wanted.bytes.extend(b"endobj\n");
    }
    wanted
}

/// Whether the parts with the numbers from 4 on are the objects, whole and packed, and those with other numbers have the
/// dictionaries with these.
fn has_parts(font: &PdfFont) -> bool {
    let count = font.part_count();
    let rising: Vec<u32> = (4..).take(count).collect();
    let falling: Vec<u32> = rising.iter().rev().copied().collect();
    let whole = |it: &Part| [format!("{} 0 obj\n", it.number).as_bytes(), &it.value().unwrap(), b"\nendobj\n"].concat();
    let numbers = References {
        cid_font: falling[1],
        descriptor: falling[2],
        program: falling[3],
        to_unicode: falling[4],
        cid_to_gid_map: 0,
        cid_set: falling.get(5).copied().unwrap_or(0),
        encoding: falling[count - 1],
    };
    let made = font.dictionaries(&numbers).unwrap();
    let own = [made.font, made.cid_font, made.descriptor, made.program, made.to_unicode];
    let further = [made.cid_set, made.encoding].into_iter().flatten();
    let dictionaries = own.into_iter().chain(further);
    let others = font.parts(&falling).unwrap();
    let plain = others.iter().map(|it| [b"<< ", &it.entries[..], b">>"].concat());
    let are_packed = streams(font).into_iter().all(|(at, stream)| {
        let mut part = others[at].clone();
        part.pack("/Own", |bytes| [bytes, b"."].concat()).unwrap();
        part.stream.as_deref() == Some(&[stream, b"."].concat()[..]) && part.entries == [&others[at].entries[..], b"/Filter /Own "].concat()
    });
    font.parts(&rising).unwrap().iter().flat_map(whole).eq(font.objects(4).unwrap().bytes)
        && dictionaries.eq(plain)
        && others[..3].iter().all(|it| it.stream.is_none())
        && are_packed
}

#[test]
fn each_row_is_answered() {
    let rows = pdf_rows();
    let mut checked = 0;
    let mut wrong = Vec::new();
    for row in &rows {
        let font = match (answer(row), row.wanted("error")) {
            (Ok(font), None) => font,
            (Err(FontError::NotPermitted(_)), Some("NotPermitted")) => continue,
            (Err(FontError::TextTooLong), Some("TextTooLong")) => continue,
            (found, wanted) => panic!("{}: {found:?}, and not {wanted:?}", row.name),
        };
        let of_row = row.fields.iter().filter(|(name, _)| name == "object");
        let dictionaries: Vec<&str> = of_row.map(|(_, value)| value.split_once(' ').unwrap().1).collect();
        let made = font.objects(4).unwrap();
        if made != objects(&font, 4, &dictionaries) {
            wrong.push(format!("{}: other objects: {}", row.name, String::from_utf8_lossy(&made.bytes)));
        }
        if !has_parts(&font) {
            wrong.push(format!("{}: other parts", row.name));
        }
        let fields = said(&font);
        let is_answered = |name: &str| name == "object" || fields.iter().any(|it| it.0 == name);
        let lacking = row.fields.iter().filter(|it| !is_answered(&it.0));
        wrong.extend(lacking.map(|(field, _)| format!("{} has no {field}", row.name)));
        for (field, value) in fields {
            checked += 1;
            if row.wanted(field) != Some(&value) {
                wrong.push(format!("{} {field}: {value}, and not {:?}", row.name, row.wanted(field)));
            }
        }
    }
    assert!(wrong.is_empty(), "{}", wrong.join("\n"));
    assert!(rows.len() >= 17 && checked > 300, "{} rows, {checked} values", rows.len());
}
