//! Subsets of lists of tasks by a crate, and their times: `original_bench --list FILE`, with lines FONT INDEX GLYPHS COUNT.
//!
//! For each line it prints `ok LEAST LENGTH HASH` of COUNT calls (nanoseconds), `error` and its text, or `panic`. The font is read and the
//! mapper made once, and the clock runs round each call of `subset` alone.

use std::time::Instant;
use subsetter::{subset, GlyphRemapper};

/// The glyphs of a list of numbers and ranges, as `3,10-12`.
fn glyphs_of(list: &str) -> Vec<u16> {
    let number = |it: &str| it.parse::<u16>().expect(list);
    let parts = list.split(',').map(|it| it.split_once('-').unwrap_or((it, it)));
    parts.flat_map(|(first, last)| number(first)..=number(last)).collect()
}

/// The FNV-1a hash of 64 bits.
fn digest(bytes: &[u8]) -> u64 {
    bytes.iter().fold(0xcbf2_9ce4_8422_2325, |hash, byte| {
        (hash ^ u64::from(*byte)).wrapping_mul(0x0100_0000_01b3)
    })
}

/// The line that says what came of a task.
fn perform(line: &str) -> String {
    let words: Vec<&str> = line.split(' ').collect();
    let [font, index, glyphs, count] = words[..] else {
        panic!("{line}")
    };
    let font = std::fs::read(font).expect(line);
    let index = index.parse().expect(line);
    let mapper = GlyphRemapper::new_from_glyphs(&glyphs_of(glyphs));
    let (mut least, mut last) = (u128::MAX, Vec::new());
    for _ in 0..count.parse::<u32>().expect(line) {
        let start = Instant::now();
        let answer = subset(&font, index, &mapper);
        least = least.min(start.elapsed().as_nanos());
        match answer {
            Ok(output) => last = output,
            Err(error) => return format!("error {error}"),
        }
    }
    format!("ok {least} {} {:016x}", last.len(), digest(&last))
}

fn main() {
    std::panic::set_hook(Box::new(|_| {}));
    let list = std::env::args().nth(2).expect("--list FILE");
    for line in std::fs::read_to_string(list).expect("a list").lines() {
        println!("{}", std::panic::catch_unwind(|| perform(line)).unwrap_or_else(|_| "panic".to_string()));
    }
}
