//! Many answers of the crate as numbers, to be compared with those on another machine: platforms LIST
//!
//! LIST has a line `FACE FILE` for each font, or an empty one. The program prints a line for each, with five numbers: of the whole font, and of four
//! sets of damaged copies. A number is FNV-1a of the fonts, CIDs, widths and error texts that the calls return.

use std::{env, fs};
use subsetter::{embed, embed_with_options, embed_with_variations, subset, subset_with_options};
use subsetter::{Embedded, Error, GlyphRemapper, Limits, Options, Tag};

/// How many damaged copies a number is of, as one alone is often refused by each call.
const COPIES: u64 = 4;

struct Random(u64);

impl Random {
    fn below(&mut self, limit: usize) -> usize {
        self.0 ^= self.0 << 13;
        self.0 ^= self.0 >> 7;
        self.0 ^= self.0 << 17;
        ((self.0.wrapping_mul(0x2545_f491_4f6c_dd1d) >> 16) % limit.max(1) as u64) as usize
    }
}

fn number(data: &[u8], at: usize, size: usize) -> usize {
    let bytes = data.get(at..at + size).unwrap_or_default();
    bytes.iter().fold(0, |all, byte| all << 8 | *byte as usize)
}

/// The tables of a face: tag, offset and length in bytes.
fn tables(data: &[u8], face: u32) -> Vec<(&[u8], usize, usize)> {
    let is_collection = data.starts_with(b"ttcf");
    let front = if is_collection { number(data, 12 + 4 * face as usize, 4) } else { 0 };
    let records = (0..number(data, front + 4, 2)).map(|table| front + 12 + 16 * table);
    records.map(|at| (&data[at..at + 4], number(data, at + 8, 4), number(data, at + 12, 4))).collect()
}

/// A copy with some other bytes, mostly in the front of a table, or cut.
fn damaged(data: &[u8], face: u32, random: &mut Random) -> Vec<u8> {
    let (mut copy, tables) = (data.to_vec(), tables(data, face));
    for _ in 0..1 + random.below(4) {
        let (_, from, length) = tables[random.below(tables.len())];
        let at = match random.below(8) {
            0 => random.below(12 + 16 * tables.len()),
            1 => from + random.below(length),
            _ => from + random.below(length.min(96)),
        };
        let (kind, byte) = (random.below(8), [0, 1, 0x7f, 0x80, 0xff, 0x0e, 0x1d][random.below(7)]);
        match copy.get_mut(at) {
            Some(_) if kind == 0 => copy.truncate(at),
            Some(there) if kind < 3 => *there ^= 1 << random.below(8),
            Some(there) => *there = byte,
            None => {}
        }
    }
    copy
}

/// FNV-1a of 64 bits.
struct Sum(u64);

impl Sum {
    fn add(&mut self, bytes: &[u8]) {
        for byte in bytes {
            self.0 = (self.0 ^ u64::from(*byte)).wrapping_mul(0x100_0000_01b3);
        }
    }

    fn add_font(&mut self, made: Result<Vec<u8>, Error>) {
        match made {
            Ok(font) => self.add(&font),
            Err(error) => self.add(error.to_string().as_bytes()),
        }
    }

    fn add_embedded(&mut self, made: Result<Embedded, Error>) {
        match made {
            Ok(made) => {
                self.add(&made.font);
                made.cids.iter().for_each(|cid| self.add(&cid.to_be_bytes()));
                made.widths.iter().for_each(|width| self.add(&width.to_be_bytes()));
            }
            Err(error) => self.add(error.to_string().as_bytes()),
        }
    }

    /// The answers for a font: in some faces at coordinates, and by options for the first face.
    fn add_answers(&mut self, data: &[u8], faces: &[u32], lists: &[Vec<u16>], choice: u64) {
        let at = [(Tag::new(b"wght"), 650.5), (Tag::new(b"slnt"), -7.25), (Tag::new(b"opsz"), 20.0)];
        for face in faces {
            for glyphs in lists {
                let mapper = GlyphRemapper::new_from_glyphs(glyphs);
                self.add_font(subset(data, *face, &mapper));
                self.add_embedded(embed(data, *face, glyphs));
                self.add_embedded(embed_with_variations(data, *face, &at, glyphs));
            }
        }
        let all = Options::new();
        let options = match choice {
            0 => all.hinting(false).names(false).glyph_names(false),
            1 => all.hinting(false),
            2 => all.names(false),
            3 => all.glyph_names(false),
            _ => all.limits(Limits::new(300, 3).unwrap().with_most_bytes(20_000)),
        };
        let mapper = GlyphRemapper::new_from_glyphs(&lists[1]);
        self.add_font(subset_with_options(data, faces[0], &mapper, &options));
        self.add_embedded(embed_with_options(data, faces[0], &lists[1], &options));
    }
}

fn spread(count: usize, n: usize) -> Vec<u16> {
    (1..=n).map(|i| (i * count / (n + 1)) as u16).collect()
}

fn main() {
    let list = env::args().nth(1).expect("LIST");
    let list = fs::read_to_string(list).expect("LIST");
    for (line, seed) in list.lines().zip(1..).filter(|it| !it.0.is_empty()) {
        let (face, path) = line.split_once(' ').expect(line);
        let (face, data) = (face.parse().expect(face), fs::read(path).expect(path));
        let maxp = tables(&data, face).into_iter().find(|it| it.0 == b"maxp").expect("maxp");
        let count = number(&data, maxp.1 + 4, 2);
        let mut lists = vec![spread(count, 3), spread(count, 40)];
        let mut random = Random(0x9e37_79b9_7f4a_7c15_u64.wrapping_mul(seed));
        let mut numbers = Vec::new();
        for set in 1..5 {
            let mut sum = Sum(0xcbf2_9ce4_8422_2325);
            for _ in 0..COPIES {
                sum.add_answers(&damaged(&data, face, &mut random), &[face], &lists, set);
            }
            numbers.push(format!("{:016x}", sum.0));
        }
        lists.extend([vec![], (0..count.min(1000) as u16).rev().collect(), vec![count as u16, u16::MAX]]);
        let mut sum = Sum(0xcbf2_9ce4_8422_2325);
        sum.add_answers(&data, &[face, 1000, 0x0fff_ffff, 0x4000_0000, u32::MAX], &lists, 0);
        println!("{:016x} {}", sum.0, numbers.join(" "));
    }
}
