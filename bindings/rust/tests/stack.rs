//! The stack that a call takes, in a build that isn't optimized: what the crate's documentation says.
#![cfg(feature = "variable-fonts")]

#[path = "table/made.rs"]
mod made;

use made::{file, words};
use std::thread;
use subsetter::{subset_with_variations, Error, GlyphRemapper, Tag};

/// A font of `count` glyphs with an axis. Each is a composite of the next one, but for the last, which is empty.
fn nested(count: u16) -> Vec<u8> {
    let (end, zeros) = (usize::from(count) - 1, vec![0; 2 * usize::from(count)]);
    let composites = (1..count).map(|next| words(&[0xffff, 0, 0, 0, 0, 2, next, 0]));
    let offsets = (0..=count).flat_map(|it| (16 * u32::from(it).min(end as u32)).to_be_bytes());
    let fvar = [1, 0, 16, 2, 1, 20, 0, 8, 0x7767, 0x6874, 100, 0, 400, 0, 900, 0, 0, 256];
    file(&[
        (b"fvar", words(&fvar)),
        (b"glyf", composites.flatten().collect()),
        (b"head", [vec![0; 18], words(&[1000]), vec![0; 30], words(&[1, 0])].concat()),
        (b"hhea", [vec![0; 34], words(&[1])].concat()),
        (b"hmtx", [words(&[500]), zeros].concat()),
        (b"loca", offsets.collect()),
        (b"maxp", [words(&[1, 0, count]), vec![0; 26]].concat()),
    ])
}

/// Glyph 0 at coordinates, in a thread with so much stack.
fn called(font: Vec<u8>, stack: usize) -> Result<Vec<u8>, Error> {
    let call = move || {
        let at = [(Tag::new(b"wght"), 650.0)];
        subset_with_variations(&font, 0, &at, &GlyphRemapper::new())
    };
    let thread = thread::Builder::new().stack_size(stack).spawn(call);
    thread.unwrap().join().unwrap()
}

#[test]
fn composites_65_deep_take_64_kb() {
    assert!(called(nested(65), 64 << 10).is_ok());
    assert_eq!(called(nested(66), 64 << 10), Err(Error::MalformedFont));
}
