"""Instances of variable fonts with outlines in `glyf`, by the C library, beside a second reading, HarfBuzz and fontTools: variable --places N --glyphs N --copies N

The fonts are Debian's Inter and those of FONTS. For each it takes N places, at random and the same in each run by the seed, and N glyphs at each, and
compares of the instance

    reading      each glyph has the contours, the points, the advance and the bearing that the second reading (lib/reading.py) computes of the source, in
                 whole numbers, and OVERLAP_SIMPLE on its first flag alone; `head` has their box, `hhea` their extremes, `hhea` and `post` what `MVAR`
                 varies, and `post` the angle of `slnt`
    HarfBuzz     what the second reading has before rounding is within 0.01 of what HarfBuzz draws at the same normalized coordinates, and the
                 advance is HarfBuzz's
    fontTools    the box of `head` and the extremes of `hhea` are those that it computes

A glyph that the second reading refuses has to be refused by itself, and at its default a font is subset as it is. N damaged copies are changed in fvar, avar,
gvar, HVAR, MVAR or glyf, at a random place and for 12 glyphs: each is answered as the second reading has it, or refused where that refuses it, within a second.
"""
import io
import random
import time

import build
import damage
import fonts
import harfbuzz
import reading
import report as reports
from made import u16s as unsigned
from reading import UNIT
from report import Report

STEPS, PIECE, BOUND = 1000000, 50, 0.01
DAMAGED = ["fvar", "avar", "gvar", "HVAR", "MVAR", "glyf"]


def u16s(*numbers):
    return unsigned(*[it % 65536 for it in numbers])


# ---- an instance as the second reading has it

def flags_of(description):
    """The flags of a simple glyph as they are stored."""
    ends = reading.number(description, 0) * 2 + 8
    size = reading.number(description, ends + 2)
    return description[ends + 4 + size:][:reading.number(description, ends) + 1]


def headers_of(lines, drawn, count):
    """`hhea` and `post` of an instance, for those at the place: with the extremes of what is drawn, and the count of metrics."""
    hhea, post = bytearray(lines[0]), lines[1]
    box, sides = reading.extremes(drawn.values())
    hhea[10:18], hhea[34:36] = u16s(*sides), u16s(count)
    return u16s(*box), bytes(hhea), post and post[:32]


def is_as_read(data, drawn, lines):
    """The same, also where the second reading can't read the new font."""
    try:
        return difference(data, drawn, lines)
    except reading.Fault as it:
        return f"a new font that is no font: {it}"


def difference(data, drawn, lines):
    """What is wrong with a new font for what was computed of its glyphs, in their order, and of `hhea` and `post`, if anything is."""
    font = reading.Font(data, [])
    tables = set(font.tables) - {b"name", b"post"}
    if tables != {b"glyf", b"head", b"hhea", b"hmtx", b"loca", b"maxp"}:
        return f"tables {sorted(tables)}"
    if font.count != len(drawn):
        return f"{font.count} glyphs"
    for glyph, (ends, points, advance, bearing) in enumerate(drawn.values()):
        if reading.simple(font.description(glyph)) != (ends, points):
            return f"glyph {glyph} has other points"
        if font.metric(glyph) != (advance, bearing):
            return f"glyph {glyph}: {font.metric(glyph)}, and not {(advance, bearing)}"
        if ends and [flag & 0x40 for flag in flags_of(font.description(glyph))] != [0x40] + [0] * (len(points) - 1):
            return f"glyph {glyph} has other flags of overlaps"
    headers = font.tables[b"head"][36:44], font.tables[b"hhea"], font.tables.get(b"post", b"")[:32] or None
    if headers != headers_of(lines, drawn, font.pairs):
        return f"`head`, `hhea` or `post`: {headers}, and not {headers_of(lines, drawn, font.pairs)}"
    return None


# ---- a font

EXTREMES = ("head", ("xMin", "yMin", "xMax", "yMax")), ("hhea", ("advanceWidthMax", "minLeftSideBearing", "minRightSideBearing", "xMaxExtent"))


def extremes_of(font):
    return [getattr(font[tag], name) for tag, names in EXTREMES for name in names]


def beside_fonttools(report, at, data):
    """The box and the extremes of an instance."""
    from fontTools.ttLib import TTFont

    font = TTFont(io.BytesIO(data), recalcBBoxes=False)
    stored = extremes_of(font)
    font.recalcBBoxes = True
    font["maxp"].recalc(font)
    font["hhea"].recalc(font)
    report.counts["fontTools"] += 1
    if stored != extremes_of(font):
        report.say("fontTools", f"at {at}: {stored}, and not {extremes_of(font)}")


def beside_harfbuzz(report, font, drawn, other):
    other.place(font.at)
    for glyph, (_, _, advance, _, it) in drawn.items():
        fine = [((x - it.left) / UNIT, y / UNIT) for x, y, _ in it.points]
        distance = harfbuzz.path_distance(harfbuzz.outline_path(fine, it.ends, [p[2] for p in it.points]), other.drawn(glyph))
        report.counts["HarfBuzz"] += 1
        if distance is None or distance > BOUND:
            report.say("HarfBuzz", f"glyph {glyph} at {font.at}: {distance} off")
        if advance != other.advance(glyph):
            report.say("HarfBuzz", f"glyph {glyph} at {font.at}: an advance of {advance}, and not {other.advance(glyph)}")


def compare_default(report, library, data, glyphs, place):
    """At its default a font is subset as it is."""
    report.counts["at the default"] += 1
    if library.subset(data, glyphs, place) != library.subset(data, glyphs):
        report.say("default", f"at {place}: another font than without coordinates")


def compare_place(report, library, data, place, glyphs, other):
    """One instance."""
    font = reading.Font(data, reading.settings_of(place))
    if not any(font.at):
        compare_default(report, library, data, sorted(glyphs), place)
        return
    drawn, refused = {}, []
    for glyph in sorted({0, *glyphs}):
        try:
            drawn[glyph] = font.drawn(glyph, STEPS)
        except reading.Fault:
            refused.append(glyph)
    for glyph in refused:
        report.counts["refused"] += 1
        if isinstance(library.subset(data, [glyph], place), bytes):
            report.say("reading", f"glyph {glyph} at {font.at} isn't refused")
    # (glyph 0 is in each instance: where it is refused, all are)
    if 0 in refused:
        return
    made = library.subset(data, list(drawn), place)
    if not isinstance(made, bytes):
        report.say("reading", f"refused at {font.at}: {made}")
        return
    wrong = is_as_read(made, {glyph: it[:4] for glyph, it in drawn.items()}, font.lines())
    report.counts["reading"] += len(drawn)
    if wrong:
        report.say("reading", f"at {font.at}: {wrong}")
        return
    beside_harfbuzz(report, font, drawn, other)
    beside_fonttools(report, font.at, made)


def one_place(words, path, number):
    report, library, data = Report(path), build.Calls(words.library), fonts.content(path)
    rng, other = random.Random(f"{words.seed} {report.label} {number}"), harfbuzz.HarfBuzz(path)
    place = harfbuzz.random_place(fonts.axes(data), rng)
    compare_place(report, library, data, place, rng.sample(range(fonts.count_in(data, 0)), min(words.glyphs, fonts.count_in(data, 0))), other)
    report.counts["places"] = 1
    return report


# ---- damaged copies

def damaged(rng, data):
    """A copy that is damaged in one of the tables, and which one."""
    tables = fonts.directory(data)
    tag = rng.choice([it for it in DAMAGED if it in tables])
    at, size = tables[tag]
    copy, size = bytearray(data), min(size, 4096) if rng.random() < 0.5 else size
    damage.changed(rng, copy, at, at + size)
    return tag, bytes(copy)


def answer_of(data, place, glyphs):
    """What the second reading has: the glyphs as drawn, and `hhea` and `post`; the name of a fault; or nothing at the default."""
    try:
        if not any(reading.place_of(reading.directory(data), reading.settings_of(place))):
            return None
        font = reading.Font(data, reading.settings_of(place))
        return ({glyph: font.drawn(glyph, STEPS)[:4] for glyph in sorted({0, *glyphs})}, font.lines())
    except reading.Fault as it:
        return it.args[0]


def damage_piece(words, path, number):
    """`PIECE` damaged copies of a font."""
    report, library, data = Report(path), build.Calls(words.library), fonts.content(path)
    rng, axes, count = random.Random(f"{words.seed} {report.label} {number}"), fonts.axes(data), fonts.count_in(data, 0)
    for k in range(PIECE):
        tag, copy = damaged(rng, data)
        place = harfbuzz.random_place(axes, rng)
        glyphs = rng.sample(range(1, count), min(12, count - 1))
        start = time.perf_counter()
        made, label = library.subset(copy, sorted(glyphs), place), f"piece {number}, copy {k}, {tag}"
        if time.perf_counter() - start > 1:
            report.say("damage", f"{label}: took {time.perf_counter() - start:.1f} seconds")
        wanted = answer_of(copy, place, glyphs)
        if wanted is None:
            compare_default(report, library, copy, sorted(glyphs), place)
        else:
            judge_copy(report, made, wanted, label)
    return report


def judge_copy(report, made, wanted, label):
    report.counts["copies"] += 1
    if isinstance(made, str):
        report.counts["refused copies"] += 1
        report.counts["another error"] += isinstance(wanted, str) and made != wanted
        if not isinstance(wanted, str):
            report.say("damage", f"{label}: {made}")
        return
    wrong = wanted if isinstance(wanted, str) else is_as_read(made, *wanted)
    if wrong:
        report.say("damage", f"{label}: answered, {wrong}")


# ---- all

def main():
    words = reports.words(places=(20, 4), glyphs=(100, 40), copies=(100000, 2000))
    fonts.install(harfbuzz.PACKAGES)
    words.library = build.library()
    paths = fonts.variable(words.folders, words.only)
    found = reports.beside(words, one_place, [(words, path, number) for number in range(words.places) for path in paths], 0.5)
    pieces = [(words, path, number) for number in range(-(-words.copies // (PIECE * len(paths)))) for path in paths]
    found += reports.beside(words, damage_piece, pieces)
    counts = reports.total(found)
    reports.end(found, counts["reading"] + counts["copies"] + counts["at the default"], f"{len(paths)} fonts at {counts['places']} places, {counts['reading']} glyphs, {counts['refused']} refused; "
                f"{counts['copies']} damaged copies, {counts['at the default']} at the default, {counts['refused copies']} refused ({counts['another error']} under another name)")
