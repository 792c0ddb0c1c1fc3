//! A PDF of lines in five scripts that HarfBuzz shapes, one of them a column; readers copy and find their text.

use std::collections::BTreeMap;
use std::error::Error;
use std::process::Command;
use subsetter::pdf::RunDirection::{self, LeftToRight, RightToLeft, TopToBottom};
use subsetter::pdf::{Direction, FontOptions, ShapedGlyph, Text, TextOptions};

const FONTS: [(&str, Direction); 4] = [
    ("/usr/share/fonts/truetype/dejavu/DejaVuSans.ttf", Direction::Horizontal),
    ("/usr/share/fonts/truetype/lohit-devanagari/Lohit-Devanagari.ttf", Direction::Horizontal),
    ("/usr/share/fonts/truetype/tlwg/Garuda.ttf", Direction::Horizontal),
    ("/usr/share/fonts/opentype/ipaexfont-mincho/ipaexm.ttf", Direction::Vertical),
];

/// The font of a line, its direction, where it begins, and its text.
const LINES: [(usize, RunDirection, &str, &str); 5] = [
    (0, LeftToRight, "80 200", "Hello, Ελλάδα, office"),
    (0, RightToLeft, "80 160", "سلام لا"),
    (1, LeftToRight, "80 120", "हिन्दी क्षत्रिय"),
    (2, LeftToRight, "80 80", "ภาษาไทยที่นี่"),
    (3, TopToBottom, "48 220", "吾輩は猫である"),
];

/// What rustybuzz has as `glyph_infos` and `glyph_positions`, by hb-shape, which prints six numbers for each glyph.
fn shape(path: &str, direction: RunDirection, line: &str) -> Result<Vec<ShapedGlyph>, Box<dyn Error>> {
    let way = ["--direction=ltr", "--direction=rtl", "--direction=ttb"][direction as usize];
    let words = ["--output-format=json", "--no-glyph-names", "--utf8-clusters", way, path, line];
    let json = String::from_utf8(Command::new("hb-shape").args(words).output()?.stdout)?;
    let digits = json.split(|it: char| it != '-' && !it.is_ascii_digit());
    let numbers: Vec<i32> = digits.filter_map(|it| it.parse().ok()).collect();
    let glyph = |it: &[i32]| ShapedGlyph {
        glyph_id: it[0] as u32,
        cluster: it[1] as u32,
        x_offset: it[2],
        y_offset: it[3],
        x_advance: it[4],
        y_advance: it[5],
    };
    Ok(numbers.chunks_exact(6).map(glyph).collect())
}

fn main() -> Result<(), Box<dyn Error>> {
    let data = FONTS.iter().map(|it| std::fs::read(it.0)).collect::<Result<Vec<_>, _>>()?;
    let options = |it: Direction| TextOptions::new().direction(it);
    let texts = FONTS.iter().zip(&data).map(|(it, data)| Text::new(data, 0, &[], &options(it.1)));
    let mut texts = texts.collect::<Result<Vec<_>, _>>()?;

    // The page comes first, and then a font for all runs of a text.
    let mut shows = b"BT".to_vec();
    for (font, direction, place, line) in LINES {
        let glyphs = shape(FONTS[font].0, direction, line)?;
        shows.extend(format!(" 1 0 0 1 {place} Tm /F{font} 24 Tf ").bytes());
        shows.extend(texts[font].shaped(line, &glyphs, direction, 24_000)?.operators);
    }
    shows.extend(b"ET");
    let (mut objects, mut fonts) = (BTreeMap::new(), String::new());
    for (name, text) in texts.iter().enumerate() {
        let (font, first) = (text.font(&FontOptions::new())?, 5 + objects.len() as u32);
        let numbers: Vec<u32> = (first..).take(font.part_count()).collect();
        for part in font.parts(&numbers)? {
            // (with a crate that deflates: `for mut part`, and first `part.pack("/FlateDecode", |bytes| deflate(bytes))?`)
            objects.insert(part.number, part.value()?);
        }
        fonts += &format!("/F{name} {first} 0 R ");
    }
    objects.insert(1, b"<< /Type /Catalog /Pages 2 0 R >>".to_vec());
    objects.insert(2, b"<< /Type /Pages /Count 1 /Kids [3 0 R] >>".to_vec());
    objects.insert(3, format!("<< /Type /Page /Parent 2 0 R /MediaBox [0 0 400 240] /Contents 4 0 R /Resources << /Font << {fonts}>> >> >>").into_bytes());
    objects.insert(4, [format!("<< /Length {} >>\nstream\n", shows.len()).as_bytes(), &shows, b"\nendstream"].concat());

    let (mut pdf, size) = (b"%PDF-1.7\n%\xe2\xe3\xcf\xd3\n".to_vec(), objects.len() + 1);
    let mut table = format!("xref\n0 {size}\n0000000000 65535 f \n");
    for (number, value) in objects {
        table += &format!("{:010} 00000 n \n", pdf.len());
        pdf.extend([format!("{number} 0 obj\n").as_bytes(), &value, b"\nendobj\n"].concat());
    }
    let start = pdf.len();
    table += &format!("trailer\n<< /Size {size} /Root 1 0 R >>\nstartxref\n{start}\n%%EOF\n");
    pdf.extend(table.bytes());
    std::fs::write("hello.pdf", pdf)?;
    Ok(())
}
