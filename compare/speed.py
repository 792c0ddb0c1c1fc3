"""What calls take: the generated crate beside HarfBuzz and the Rust crate, by turns: speed --runs N --only WORD

A row is a font (lib/fonts.py) with a number of kept glyphs, low ones in order or spread over the face, or all in a jumbled order. HarfBuzz's face is
preprocessed before the clock starts. In each of N runs all programs take their turn, and the median of the runs' least times counts. A row fails where the
crate takes more than its part of another program's time (HARFBUZZ, ORIGINAL). At the end a run of 1,000 glyphs is laid out by drivers/text.rs.
"""
import os
import statistics
import subprocess
import tempfile

import build
import fonts
import report as reports
from cost import numbers_in
from pdf_readers import ran
from text import DRIVERS, Run

# The parts of another program's time that the crate may take: of HarfBuzz's, and of the Rust crate's by the kind of outlines.
HARFBUZZ, ORIGINAL = 0.60, {"glyf": 0.35, "CFF ": 0.25}
# The fewest glyphs that a turn subsets, by 2 to 200 calls.
GLYPHS = 40000


def driven(program, given):
    """The least nanoseconds of a driver's calls for each line; none where it refuses."""
    said = subprocess.run([program, "--list", given], stdout=subprocess.PIPE, text=True, check=True).stdout.splitlines()
    return [int(it.split()[1]) if it.startswith("ok") else None for it in said]


def measured(programs, path, index, words, room):
    """For each list of glyphs of a face its name, and the median of the times of each program, by turns; none of one that refuses."""
    sets = {glyphs: name for name, glyphs in reversed(fonts.glyph_sets(fonts.glyph_count(path, index))) if not words.short or name == "80 spread"}
    lines = [f"{path} {index} {glyphs} {max(2, min(200, GLYPHS // len(numbers_in(glyphs))))}\n" for glyphs in sets]
    given = fonts.put(os.path.join(room, "list"), "".join(lines))
    turns = [[driven(program, given) for program in programs.values()] for _ in range(words.runs)]
    for k, name in reversed(list(enumerate(sets.values()))):
        found = zip(programs, zip(*([it[k] for it in turn] for turn in turns)))
        yield name, {it: statistics.median(times) * (9 if build.CANARY and it == "crate" else 1) for it, times in found if None not in times}


def laid_out(room):
    """The microseconds of a run of 1,000 glyphs, without own glyphs and with."""
    font = fonts.TRUETYPE_FONTS[0][1]
    runs = fonts.put(os.path.join(room, "runs"), Run(font, "", ("The quick brown fox jumps over the lazy dog. " * 23)[:1000]).numbers())
    return [int(ran(*DRIVERS["rust"](), font, runs, "0", "200", own)) / 1000 for own in "01"]


def main():
    words = reports.words(runs=(3, 1))
    fonts.install([it[0] for it in fonts.TRUETYPE_FONTS + fonts.CFF_FONTS] + ["libharfbuzz-bin", "libharfbuzz-dev"])
    programs = {"crate": build.driver("generated"), "HarfBuzz": build.gcc("harfbuzz.c", "-I/usr/include/harfbuzz", "-lharfbuzz-subset", "-lharfbuzz", to="harfbuzz_bench"),
                "Rust crate": build.driver("original")}
    report, parts = reports.Report("speed"), {name: [] for name in programs}
    with tempfile.TemporaryDirectory(prefix="speed-") as room:
        cases = [(*it, *row) for _, *it in fonts.TRUETYPE_FONTS + fonts.CFF_FONTS if words.only in it[0] for row in measured(programs, *it, words, room)]
        for path, index, name, times in cases:
            label = f"{fonts.label(path, index)}, {name}"
            print(f"{label}: {', '.join(f'{it} {time / 1000:.1f} µs' for it, time in times.items())}", flush=True)
            report.counts["rows"] += 1
            kind = "glyf" if "glyf" in fonts.directory(fonts.content(path), index) else "CFF "
            for other, goal in (("HarfBuzz", HARFBUZZ), ("Rust crate", ORIGINAL[kind])):
                if other in times:
                    parts[other].append(times["crate"] / times[other])
                    if parts[other][-1] > goal:
                        report.say(label, f"{parts[other][-1]:.2f} of {other}'s time, and not {goal}")
        plain, own = laid_out(room)
    means = ", ".join(f"{statistics.geometric_mean(found):.2f} of {name}'s time in the geometric mean, at most {max(found):.2f}" for name, found in parts.items() if found)
    reports.end([report], report.counts["rows"], f"{means}; a run of 1,000 glyphs in {plain:.0f} µs, with own glyphs {own:.0f}")
