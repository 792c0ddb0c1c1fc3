//! What `tests/data/compile` writes, and the rows of `subset.txt`.

#![allow(dead_code)] // (each test takes a part of it)

pub mod words;

use std::collections::HashMap;
use std::fs;
use subsetter::{Embedded, Error, Limits, Options, Tag};
use words::{bytes, numbers, short_numbers};

pub struct Row {
    pub call: String,
    pub name: String,
    pub font: Vec<u8>,
    pub index: u32,
    pub glyphs: Vec<u16>,
    /// Of `subset_at` and `embed_at` alone; None where Rust has no such number.
    pub coordinates: Option<Vec<(Tag, f32)>>,
    /// Tokens, depth, what is dropped, and bytes; 0 is the library's default but for `limits`.
    pub choice: [u32; 4],
    pub status: u32,
    pub wanted: Embedded,
}

pub struct Table {
    pub fonts: HashMap<String, Vec<u8>>,
    pub rows: Vec<Row>,
}

/// The errors of the statuses from 1 on.
pub const ERRORS: [Error; 7] = [
    Error::UnknownKind,
    Error::MalformedFont,
    Error::Unimplemented,
    Error::SubsetError,
    Error::OverflowError,
    Error::CFFError,
    Error::OutOfMemory,
];

/// The rows of a table, with `{x*3}` as xxx.
pub fn rows_of(name: &str) -> Vec<String> {
    let repeated = |(at, part): (usize, &str)| match part.rsplit_once('*') {
        Some((text, count)) if at % 2 == 1 => text.repeat(count.parse().unwrap()),
        _ => part.to_string(),
    };
    let text = String::from_utf8(made(name)).unwrap();
    let rows = text.lines().filter(|it| !it.is_empty() && !it.starts_with('#'));
    let rows: Vec<_> = rows.map(|row| row.split(['{', '}']).enumerate().map(repeated).collect()).collect();
    assert!(rows.len() > 10);
    rows
}

/// The coordinates of a list, as far as Rust has such numbers.
pub fn variations(word: &str) -> Option<Vec<(Tag, f32)>> {
    let of_tag = |(tag, value): ([u8; 4], f32)| (Tag::new(&tag), value);
    words::coordinates(word).map(|it| it.into_iter().map(of_tag).collect())
}

impl Table {
    fn add(&mut self, line: &str) {
        let words: Vec<&str> = line.split_whitespace().collect();
        match words[..] {
            [] | ["text", ..] => {}
            ["font", name, digits] => {
                self.fonts.insert(name.to_string(), bytes(digits));
            }
            _ => self.rows.push(row(&words, &self.fonts)),
        }
    }
}

fn row(words: &[&str], fonts: &HashMap<String, Vec<u8>>) -> Row {
    let call = words[0].to_string();
    let first = if call.ends_with("_at") { 6 } else { 5 };
    let (choices, behind) = words[first..].split_at(words.len() - first - if call.starts_with("embed") { 4 } else { 2 });
    let mut choice = [0; 4];
    for (number, word) in choice.iter_mut().zip(choices) {
        *number = word.parse().unwrap();
    }
    let list = |at: usize| behind.get(at).copied().unwrap_or("-");
    Row {
        call,
        name: words[1].to_string(),
        font: fonts[words[2]].clone(),
        index: words[3].parse().unwrap(),
        glyphs: short_numbers(words[4]),
        coordinates: variations(if first == 6 { words[5] } else { "-" }),
        choice,
        status: behind[0].parse().unwrap(),
        wanted: Embedded { font: bytes(behind[1]), cids: short_numbers(list(2)), widths: numbers(list(3)) },
    }
}

/// A compiled file, or a font: the package has those of TrueType.
pub fn made(name: &str) -> Vec<u8> {
    let folder = if name.ends_with(".ttf") { "bindings/rust/tests/data/" } else { "crates/dev_rows/data/" };
    fs::read(env!("CARGO_MANIFEST_DIR").to_string() + "/../../" + folder + name).unwrap()
}

/// The worked rows.
pub fn table() -> Table {
    let mut table = Table { fonts: HashMap::new(), rows: Vec::new() };
    let text = String::from_utf8(made("subset.txt")).unwrap();
    let lines = text.lines().filter(|line| !line.starts_with('#'));
    lines.for_each(|line| table.add(line));
    assert!(table.rows.len() > 300);
    table
}

impl Row {
    /// Whether Rust can say what the row asks for: a mapper holds at most 65,535 glyphs.
    pub fn can_be_said(&self) -> bool {
        let [_, depth, drop, _] = self.choice;
        drop < 8 && depth < 256 && (self.glyphs.len() < 65_535 || self.embeds())
    }

    pub fn embeds(&self) -> bool {
        self.call.starts_with("embed")
    }

    /// Whether the row has coordinates.
    pub fn varies(&self) -> bool {
        self.call.ends_with("_at")
    }

    /// The limits of the row: None where they are no limits.
    pub fn limits(&self) -> Option<Limits> {
        let [tokens, depth, _, bytes] = self.choice;
        let or_default = |number, default| match number {
            0 if self.call != "limits" => default,
            _ => number,
        };
        let limits = Limits::new(or_default(tokens, 1_000_000), or_default(depth, 64) as u8)?;
        Some(match bytes {
            0 => limits,
            _ => limits.with_most_bytes(bytes),
        })
    }

    /// The options of the row.
    pub fn options(&self, limits: Limits) -> Options {
        let [tokens, depth, drop, bytes] = self.choice;
        let options = Options::new().hinting(drop & 1 == 0).names(drop & 2 == 0).glyph_names(drop & 4 == 0);
        match (tokens, depth, bytes) {
            (0, 0, 0) => options,
            _ => options.limits(limits),
        }
    }

    pub fn wanted(&self) -> Result<Embedded, Error> {
        match self.status {
            0 => Ok(self.wanted.clone()),
            status => Err(ERRORS[status as usize - 1]),
        }
    }
}
