"""Shows by three PDF readers that a subset is drawn as its source: readers --faces N --bare N --fonts N --places N

For N faces of the machine's fonts (one after another TrueType, SID-keyed, CID-keyed; with --short of lib/fonts.py) and some glyphs of each it writes
two PDF files by hand. One embeds the whole font and shows the glyphs by their old numbers; the other embeds what `subset_font --widths` made of it and shows
them by the numbers that this printed. TrueType outlines are CIDFontType2 with FontFile2; CFF ones are taken twice, as CIDFontType0C (the bare table) and
as OpenType (the whole file). --bare N faces are taken without hinting, names and glyph names.

The first page has the glyphs on a grid. The second has a line of them: in the source each glyph is where the advances of the source's `hmtx` put it; in the
subset it is one string, whose glyphs `/W` alone moves on.

MuPDF, Poppler and Ghostscript draw both: the pictures of the grid are the same, pixel for pixel (of Ghostscript, which lets FreeType hint by letters
that it finds by names, ink lies within two pixels of ink), and not blank; the line's ink lies within a pixel of ink, and by MuPDF's trace each of its glyphs
is as near as widths in whole thousandths are; and no warning comes for the subset that doesn't come for the source.

Of variable fonts (Debian's Inter, those with CFF2 of lib/cff2_fonts.py, and those of FONTS) N are taken, at N places (with CFF2 at the default, too), with up
to 24 glyphs at each, beside a font of the same outlines that is made by another way: name-keyed and without hints, by fontTools, of what HarfBuzz draws of the
source, each coordinate rounded once, with HarfBuzz's advances. Ink lies within two pixels of ink, at 128 pixels an em. For Ghostscript, which lets
FreeType hint what is upright, the glyphs lean by a ten thousandth.
"""
import io
import mmap
import os
import random
import tempfile

import cff2_fonts
import drawn_by
import fonts
import harfbuzz
import reading
import report as reports
from cff2_source import Face as Cff2Face
from cff2_whole import TOO_LARGE, is_too_wide
from drawn_by import LINE, UNREADABLE, Refused, grid, line_by_widths, line_of, places_by_trace, subset
from pdf_file import Face
from report import Report

GLYPHS_A_FACE = 40
GLYPHS_A_PLACE = 24
SMALL_PAGE, BASE, DPI = (480, 180), 80, 288
# (Poppler leaves out long arrows that lean by so little)
LEANS = {0: [it for it in drawn_by.READERS if it != "Ghostscript"], 0.0001: ["Ghostscript"]}


def line_by_places(codes, places):
    """The second page of the source: each code at its place."""
    text = [f"BT /F0 {LINE} Tf"]
    text += [f"1 0 0 1 {20 + x:.6f} 500 Tm <{code:04X}> Tj" for code, x in zip(codes, places)]
    return "\n".join(text + ["ET"])


def compare(font, index, glyphs, folder, bare):
    """What differs, for each way to embed the font."""
    out, wrong = os.path.join(folder, "subset.font"), []
    numbers, widths = subset(font, index, glyphs, out, bare)
    source, copy = Face(fonts.content(font), index), Face(fonts.content(out))
    old = source.cids(max(glyphs) + 1) if source.is_cff else range(65536)
    line, places = line_of(source, glyphs)
    own = "[" + " ".join(f"{old[g]} [{source.advance(g) * 1000 / source.units:.4f}]" for g in sorted(set(glyphs))) + "]"
    for way in ("CIDFontType0C", "OpenType") if source.is_cff else ("TrueType",):
        before = drawn_by.write(os.path.join(folder, way, "source"), source, way, own, [grid([old[g] for g in glyphs]), line_by_places([old[g] for g in line], places)])
        after = drawn_by.write(os.path.join(folder, way, "subset"), copy, way, widths, [grid([numbers[g] for g in glyphs]), line_by_widths([numbers[g] for g in line])])
        found = drawn_by.differences(after, before, 1 if bare else 0)
        # A width is off by half a thousandth at most, and the trace says places to a ten thousandth or so.
        theirs, ours, slack = places_by_trace(before), places_by_trace(after), len(line) * 0.0005 * LINE + 0.01
        if not len(theirs) == len(ours) == len(line) or any(abs(a - b) > slack for a, b in zip(theirs, ours)):
            found.append("MuPDF: the line's glyphs stand elsewhere")
        wrong += [f"{way}: {it}" for it in found]
    return wrong


def chosen(count):
    """`count` faces of the machine: one after another of each kind of outlines, spread over its list."""
    kinds, taken = {"TrueType": [], "SID-keyed": [], "CID-keyed": []}, []
    for path, index in fonts.faces():
        with open(path, "rb") as file, mmap.mmap(file.fileno(), 0, access=mmap.ACCESS_READ) as data:
            tables = fonts.directory(data, index)
            at = tables.get("CFF ", [None])[0]
            if "glyf" in tables or at:
                kinds["TrueType" if "glyf" in tables else "CID-keyed" if b"\x0c\x1e" in data[at:at + 400] else "SID-keyed"].append((path, index))
    for listed in kinds.values():
        random.Random(1).shuffle(listed)
    while len(taken) < count and any(kinds.values()):
        taken += [listed.pop() for listed in kinds.values() if listed]
    return sorted(taken[:count])


def some_glyphs(path, index):
    """Some glyphs of a face, spread and jumbled (the same in each run)."""
    there = [g for g in Face(fonts.content(path), index).glyphs_drawn() if g < 65535]
    return random.Random(os.path.basename(path)).sample(there, min(len(there), GLYPHS_A_FACE))


def compare_face(bare, path, index):
    """A face by each way to embed it."""
    report = Report(fonts.label(path, index))
    with tempfile.TemporaryDirectory(prefix="readers-") as room:
        try:
            asked = some_glyphs(path, index)
            wrong = compare(path, index, asked, room, bare)
        except Refused as it:
            wrong = [f"refused: {it}"]
        except UNREADABLE as it:
            wrong = [f"not read by this script: {it!r}"]
    report.counts.update(faces=1, bare=int(bare))
    for it in wrong:
        report.say("bare" if bare else "whole", it)
    return report


# ---- variable fonts

def other_font(units, paths, advances):
    """The bytes of a name-keyed font of these glyphs, in their order; its `/W`."""
    from fontTools.fontBuilder import FontBuilder
    from fontTools.pens.t2CharStringPen import T2CharStringPen

    drawn, names = {}, [".notdef"] + [f"g{k}" for k in range(1, len(paths))]
    for name, path, width in zip(names, paths, advances):
        pen = T2CharStringPen(width, None)
        draw = {"move_to": pen.moveTo, "line_to": pen.lineTo, "cubic_to": pen.curveTo, "quadratic_to": pen.qCurveTo}
        for contour in harfbuzz.contours(path):
            for kind, *values in contour:
                draw[kind](*zip(map(harfbuzz.half_up, values[::2]), map(harfbuzz.half_up, values[1::2])))
            pen.closePath()
        drawn[name] = pen.getCharString()
    builder, out = FontBuilder(units, isTTF=False), io.BytesIO()
    builder.setupGlyphOrder(names)
    builder.setupCharacterMap({})
    builder.setupCFF("Other", {"FontMatrix": [1 / units, 0, 0, 1 / units, 0, 0]}, drawn, {})
    builder.setupHorizontalMetrics({name: (width, 0) for name, width in zip(names, advances)})
    builder.setupHorizontalHeader(ascent=800, descent=-200)
    builder.setupNameTable({"familyName": "Other", "styleName": "Regular"})
    builder.setupOS2()
    builder.setupPost(keepGlyphNames=False)
    builder.save(out)
    return out.getvalue(), "[0 [" + " ".join(f"{width * 1000 / units:g}" for width in advances) + "]]"


def compare_place(path, index, cff2, place, glyphs, folder):
    """The differences at a place."""
    out, source, other = os.path.join(folder, "subset.font"), Face(fonts.content(path), index), harfbuzz.HarfBuzz(path, index)
    numbers, widths = subset(path, index, glyphs, out, not cff2, ["--at", harfbuzz.words_at(place)])
    order = {new: glyph for glyph, new in [(0, 0), *numbers.items()]}
    old = [order[new] for new in range(len(order))]
    at = reading.place_of({tag.encode("latin-1"): table for tag, table in source.tables.items()}, [(tag.encode("latin-1"), value) for tag, value in place])
    other.place(at)
    # (without HVAR HarfBuzz 6 has no advance of CFF2)
    advances = [cff2.advance(glyph, at) if cff2 else other.advance(glyph) for glyph in old]
    theirs, array = other_font(source.units, [other.drawn(glyph) for glyph in old], advances)
    shown, x = [], 0
    for number in range(1, len(old)):
        x += advances[number] * LINE / source.units
        shown += [number] if x <= SMALL_PAGE[0] - 60 else []
    wrong = []
    for way in ("CIDFontType0C", "OpenType") if cff2 else ("TrueType",):
        for lean, readers in LEANS.items():
            contents, room = [grid(range(1, len(old)), SMALL_PAGE, lean), line_by_widths(shown, BASE, lean)], os.path.join(folder, way, str(lean))
            ours = drawn_by.write(os.path.join(room, "subset"), Face(fonts.content(out)), way, widths, contents, SMALL_PAGE)
            others = drawn_by.write(os.path.join(room, "other"), Face(theirs), "CIDFontType0C" if way == "TrueType" else way, array, contents, SMALL_PAGE)
            wrong += [f"{way}, {it}" for it in drawn_by.differences(ours, others, 2, DPI, readers)]
    return wrong


def one_place(number, path, index):
    """A face at a random place, or one with CFF2 at its default (0)."""
    data, label = fonts.content(path), fonts.label(path, index)
    report, rng, cff2 = Report(label), random.Random(f"{label} {number}"), Cff2Face(path, index) if "CFF2" in fonts.directory(data, index) else None
    axes, count, other = fonts.axes(data, index), fonts.count_in(data, index), harfbuzz.HarfBuzz(path, index)
    there = [glyph for glyph in rng.sample(range(1, count), min(count - 1, 4 * GLYPHS_A_PLACE)) if harfbuzz.contours(other.drawn(glyph))][:GLYPHS_A_PLACE]
    place, wrong = harfbuzz.random_place(axes, rng) if number else [], []
    with tempfile.TemporaryDirectory(prefix="places-") as room:
        try:
            wrong = compare_place(path, index, cff2, place, there, room)
            report.counts["places"] += 1
        except Refused as it:
            if not (cff2 and is_too_wide(cff2, cff2.at(place), [0, *there]) and str(it) == TOO_LARGE):
                wrong = [f"refused: {it}"]
    for it in wrong:
        report.say(f"at {harfbuzz.words_at(place) or 'the default'}", it)
    return report


# ---- all

def main():
    words = reports.words(faces=(200, 15), bare=(60, 6), fonts=(1000, 3), places=(20, 1))
    fonts.install([*drawn_by.PACKAGES, *harfbuzz.PACKAGES, *(it[0] for it in fonts.TRUETYPE_FONTS + fonts.CFF_FONTS)])
    drawn_by.program()
    listed = [it[1:] for pair in zip(fonts.TRUETYPE_FONTS, fonts.CFF_FONTS) for it in pair]
    faces = [(bare, path, index) for bare, count in ((False, words.faces), (True, words.bare))
             for path, index in (listed[:count] if words.short else chosen(count)) if words.only in path]
    found = reports.beside(words, compare_face, fonts.part_of(faces, len(faces)), 0.5)
    variable = [(path, 0) for path in fonts.variable(words.folders, words.only)][:words.fonts]
    cff2 = cff2_fonts.faces(words.folders, words.only)[:words.fonts]
    rows = [(number, *it) for number in range(words.places + 1) for it in variable * (number > 0) + cff2 if not number or fonts.axes(fonts.content(it[0]), it[1])]
    places = reports.beside(words, one_place, rows)
    counts = reports.total(found + places)
    reports.end(found + places, counts["faces"] + counts["places"], f"{counts['faces']} faces, {counts['bare']} of them bare, and {counts['places']} places of {len({it.label for it in places})} variable "
                "fonts, with `glyf` or CFF2, by three readers")
