//! What no row and no clause says: calls of the proved modules against values from outside.
#![cfg(feature = "program")]

use std::prelude::v1::*;

mod blend;
mod pdf;
mod sheet;
mod text;

/// The bytes of hexadecimal digits, with blanks anywhere.
fn hex(digits: &str) -> Vec<u8> {
    let digits = digits.chars().filter(|it| *it != ' ').map(|it| it.to_digit(16).unwrap() as u8);
    digits.collect::<Vec<_>>().chunks(2).map(|two| 16 * two[0] + two[1]).collect()
}
