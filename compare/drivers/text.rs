//! The operators of runs, and the objects of their font: `text FONT RUNS VERTICAL`. A line of RUNS has numbers alone: of the direction, how many
//! characters and glyphs there are, the characters, and six for each glyph. With a further word, `text FONT RUNS VERTICAL COUNT OWN`, it prints
//! the least nanoseconds of laying out the first run COUNT times, with own glyphs where OWN is 1.

use std::io::Write;
use subsetter::pdf::{ClusterUnit, Direction, FontOptions, Rights, RunDirection, ShapedGlyph, Text, TextOptions};

fn main() {
    let words: Vec<String> = std::env::args().skip(1).collect();
    let (font, lines) = (std::fs::read(&words[0]).expect("a font"), std::fs::read_to_string(&words[1]).expect("runs"));
    let direction = if words[2] == "1" { Direction::Vertical } else { Direction::Horizontal };
    let options = TextOptions::new().direction(direction).clusters(ClusterUnit::Utf32);
    let runs: Vec<(RunDirection, String, Vec<ShapedGlyph>)> = lines.lines().map(run_of).collect();
    if let [_, _, _, count, own] = &words[..] {
        let times = (0..count.parse().expect("a count")).map(|_| {
            let mut text = Text::new(&font, 0, &[], &options.own_glyphs(own == "1")).expect("a font");
            let start = std::time::Instant::now();
            text.shaped(&runs[0].1, &runs[0].2, runs[0].0, 24_000).expect("a run");
            start.elapsed().as_nanos()
        });
        return println!("{}", times.min().expect("a time"));
    }
    let (mut text, mut out) = (Text::new(&font, 0, &[], &options).expect("a font"), std::io::stdout());
    for (direction, line, glyphs) in &runs {
        out.write_all(&text.shaped(line, glyphs, *direction, 24_000).expect("a run").operators).expect("a place");
    }
    let made = text.font(&FontOptions::new().hinting(false).cid_set(true).rights(Rights::Held)).expect("a font");
    out.write_all(&made.objects(7).expect("objects").bytes).expect("a place");
}

fn run_of(line: &str) -> (RunDirection, String, Vec<ShapedGlyph>) {
    let numbers: Vec<i32> = line.split(' ').map(|it| it.parse().expect(line)).collect();
    let (characters, glyphs) = numbers[3..].split_at(numbers[1] as usize);
    let glyph = |it: &[i32]| ShapedGlyph { glyph_id: it[0] as u32, cluster: it[1] as u32, x_advance: it[2], y_advance: it[3], x_offset: it[4], y_offset: it[5] };
    let direction = [RunDirection::LeftToRight, RunDirection::RightToLeft, RunDirection::TopToBottom][numbers[0] as usize];
    (direction, characters.iter().filter_map(|it| char::from_u32(*it as u32)).collect(), glyphs.chunks(6).map(glyph).collect())
}
