//! The words of rows.

#![allow(dead_code)] // (each test takes a part of it)

pub fn bytes(word: &str) -> Vec<u8> {
    let digit = |byte: u8| (byte as char).to_digit(16).unwrap() as u8;
    let digits = word.trim_matches('-').as_bytes().chunks(2);
    digits.map(|two| 16 * digit(two[0]) + digit(two[1])).collect()
}

/// The numbers of a list as `1,4..7`.
pub fn numbers(word: &str) -> Vec<u32> {
    let parts = word.split(',').filter(|part| *part != "-");
    let range = |part: &str| {
        let (first, last) = part.split_once("..").unwrap_or((part, part));
        first.parse::<u32>().unwrap()..=last.parse().unwrap()
    };
    parts.flat_map(range).collect()
}

pub fn short_numbers(word: &str) -> Vec<u16> {
    let narrow = |number: u32| u16::try_from(number).unwrap();
    numbers(word).into_iter().map(narrow).collect()
}

/// The text of characters as `66,69`.
pub fn characters(word: &str) -> String {
    let one = |digits: &str| char::from_u32(u32::from_str_radix(digits, 16).unwrap()).unwrap();
    word.split(',').filter(|it| !it.is_empty()).map(one).collect()
}

/// A glyph and a text, as `5:66,69`; no glyph for `-`.
pub fn entry(word: &str) -> (Option<u16>, String) {
    let (glyph, text) = word.split_once(':').unwrap();
    (glyph.parse().ok(), characters(text))
}

/// The coordinates of a list as `wght=42598400`, in 65536ths; None where one has no such number.
pub fn coordinates(word: &str) -> Option<Vec<([u8; 4], f32)>> {
    let parts = word.split(',').filter(|part| *part != "-");
    let one = |part: &str| {
        let (tag, value) = part.split_once('=').unwrap();
        let (tag, value): (_, f64) = (tag.as_bytes().try_into().unwrap(), value.parse().unwrap());
        let number = (value / 65536.0) as f32;
        (f64::from(number) * 65536.0 == value).then_some((tag, number))
    };
    parts.map(one).collect()
}
