"""Static fonts that the program makes of CFF2 fonts at coordinates, beside fontTools and HarfBuzz: cff2 --places N --glyphs N --copies N

The fonts are those of lib/cff2_fonts.py and those with the table `CFF2` in FONTS (fonts-cantarell, `prebuilt`, and harfbuzz, `test/subset/data/fonts`,
have some). Each is taken at the default and at N places, for N glyphs (0: all; of more than 5,000 glyphs 300), in random order. Of each new font

    drawing       HarfBuzz and fontTools draw of it what HarfBuzz draws of the source, each coordinate rounded once by halves up; where HarfBuzz's float is
                  within 0.001 of a half, what the second reading comes to in exact fractions (lib/cff2_source.py)
    hints         stems and masks are the source's, each edge rounded once
    advance       hmtx has HarfBuzz's advance, and what a second reading of HVAR comes to (lib/reading.py); the bearing is the left side of the box
    width         the charstring's width, as fontTools reads it by the private dict, is that of hmtx
    private dict  the glyph's has the operators that CFF and CFF2 share, each edge and number at the location rounded once
    file          OTTO; the tables CFF, head, hhea, hmtx, maxp, name and post (those two where the source has them), with their checksums; CID-keyed
                  Adobe Identity with the source's scale, no subroutines and no unused font dict; FontBBox, the box of head and the extremes of
                  hhea are those of the outlines (fontTools' ControlBoundsPen); else head is the source's, and hhea and post are what MVAR makes
                  of theirs; FreeType hints each glyph, where it does so of the source

N copies of the fonts of at most 1 MB are damaged in CFF2, fvar, avar or HVAR, each at a random place and for 12 glyphs: the program has to give what
HarfBuzz draws of the copy (or, where that goes on otherwise, the second reading; or else a font that FreeType opens as little as the copy), or to refuse it
with status 1 and one of its messages, within a second. A glyph that is refused is a difference, but where its advance is above 32,767.
"""
import tempfile

import build
import cff2_damaged
import cff2_fonts
import cff2_whole
import fonts
import harfbuzz
import report as reports

# Larger fonts aren't damaged.
DAMAGED_AT_MOST = 2 ** 20


def one_place(words, path, index, number):
    with tempfile.TemporaryDirectory(prefix="cff2-") as room:
        return cff2_whole.compare_face(words, path, index, number, room)


def main():
    words = reports.words(places=(20, 2), glyphs=(0, 60), copies=(100000, 600))
    fonts.install(harfbuzz.PACKAGES)
    words.program = build.program()
    faces = cff2_fonts.faces(words.folders, words.only, with_large=not words.short)
    found = reports.beside(words, one_place, [(words, *it, number) for number in range(words.places + 1) for it in faces if not number or fonts.axes(fonts.content(it[0]), it[1])], 0.5)
    small = cff2_fonts.faces(words.folders, words.only, DAMAGED_AT_MOST)
    pieces = [(words, *face, number) for number in range(-(-words.copies // (cff2_damaged.PIECE * len(small)))) for face in small]
    found += reports.beside(words, cff2_damaged.piece, pieces)
    counts = reports.total(found)
    kinds = min(counts[kind] for kind in cff2_whole.KINDS)
    reports.end(found, kinds and counts["drawing"] + counts["copies"],
                f"{len(faces)} faces, {counts['file']} new fonts, {counts['drawing']} glyphs, {counts['too wide']} refused for an advance past 32767; "
                f"{counts['copies']} damaged copies, {counts['refused']} refused, drawn as by HarfBuzz {counts['drawn as by HarfBuzz']} glyphs, "
                f"by the second reading {counts['drawn as by the second reading']}, opened by nobody {counts['opened by nobody']}")
