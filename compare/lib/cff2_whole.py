"""Whole fonts that the program makes of CFF2 fonts at coordinates, beside their sources: what cff2.py compares."""
import io
import os
import random
import struct
import subprocess

import build
import cff2_source
import fonts
import harfbuzz
import reading
from cff2_source import Face, drawn, rounded
from harfbuzz import HarfBuzz, contours, half_up
from report import Report

TABLES = {"CFF ", "head", "hhea", "hmtx", "maxp", "name", "post"}
# Those that a source may lack.
OPTIONAL = {"name", "post"}
NAMES = set(range(15)) - {10}
# The first line on standard error of a font that is refused (docs/CLI.md); these can be the answer to a damaged CFF2 font.
REFUSALS = {"malformed font", "unsupported feature in font", "overflow occurred", "processing CFF table failed", "unknown font kind"}
# The one that is right where an advance is past the numbers of a charstring, in which its width is.
TOO_LARGE, WIDEST = "overflow occurred", 32767
# No run takes as many seconds.
LONG = 120
KINDS = ["drawing", "advance", "width", "hints", "private dict", "file"]
CANARY = build.Canary()


class Refused(Exception):
    """The program refused a font; the first line that it said."""


class Broken(Exception):
    """The program ended as it never may; how."""


def subset_at(program, path, index, place, glyphs, room):
    """The new font, and the old number of each of its glyphs."""
    gids, out = fonts.put(os.path.join(room, "gids"), ",".join(map(str, glyphs))), os.path.join(room, "out")
    words = [program, "--at", harfbuzz.words_at(place), "--gids-file", gids, path, out, str(index)]
    try:
        ran = subprocess.run(words, capture_output=True, text=True, errors="replace", timeout=LONG)
    except subprocess.TimeoutExpired:
        raise Broken(f"no end after {LONG} seconds") from None
    first = (ran.stderr.splitlines() or [""])[0]
    if ran.returncode == 1 and first in REFUSALS:
        raise Refused(first)
    if ran.returncode:
        raise Broken(f"status {ran.returncode}: {first}")
    old = {new: old for old, new in [(0, 0), *(tuple(map(int, line.split(" -> "))) for line in ran.stdout.splitlines())]}
    if sorted(old) != list(range(len(old))) or set(old.values()) != {0, *glyphs}:
        raise Broken("its lines don't number the requested glyphs")
    return CANARY.changed(fonts.content(out)), [old[new] for new in range(len(old))]


# ---- the file

def names_of(font):
    """The names that a subset keeps: those in Unicode with these identifiers."""
    kept = [it for it in font["name"].names if it.isUnicode() and it.nameID in NAMES] if "name" in font else []
    return sorted((it.nameID, it.platformID, it.platEncID, it.langID, it.string) for it in kept)


def boxes_of(font):
    """The boxes of glyphs as fontTools draws them, by their control points too; None of an empty one."""
    from fontTools.pens.boundsPen import ControlBoundsPen

    glyphs, found = font.getGlyphSet(), []
    for name in font.getGlyphOrder():
        pen = ControlBoundsPen(None)
        glyphs[name].draw(pen)
        found.append(pen.bounds)
    return found


def around(boxes):
    """The least box around those that are there."""
    return [int(pick((it[side] for it in boxes if it), default=0)) for side, pick in enumerate((min, min, max, max))]


def faults_of_headers(face, font, place, advances, boxes):
    """What is wrong with head, hhea, maxp, name and post: `head` and `hhea` have the boxes, `hhea` and `post` what MVAR makes of theirs, and `post` the
    angle of `slnt`."""
    tables, found, at = {tag: font.reader[tag] for tag in font.reader.keys()}, [], face.at(place)
    head, mvar = face.tables[b"head"], face.tables.get(b"MVAR")
    left, low, right, top = around(boxes)
    if tables["head"][:8] + tables["head"][12:] != head[:8] + head[12:36] + struct.pack(">4h", left, low, right, top) + head[44:]:
        found.append("head")
    hhea = bytearray(reading.varied_lines(mvar, at, b"hhea", face.tables[b"hhea"]))
    behind = min((min(advance - int(it[2]), 32767) for advance, it in zip(advances, boxes) if it), default=0)
    hhea[10:18], hhea[34:36] = struct.pack(">H3h", max(advances), left, behind, right), tables["hhea"][34:36]
    if tables["hhea"] != hhea:
        found.append(f"hhea {tables['hhea'].hex()}, and not {hhea.hex()}")
    if tables["maxp"] != b"\0\0\x50\0" + len(advances).to_bytes(2, "big"):
        found.append("maxp")
    post = reading.slanted(face.tables, reading.settings_of(place), at, reading.varied_lines(mvar, at, b"post", face.tables.get(b"post")))
    if post is not None and tables.get("post", b"")[4:32] != post[4:32]:
        found.append("post")
    kept = len(font["name"].names) if "name" in font else 0
    return found + (["name"] if names_of(font) != names_of(face.font) or kept != len(names_of(font)) else [])


def is_near(one, other):
    return len(one) == len(other) and all(abs(a - b) < 1e-9 for a, b in zip(one, other))


def faults_of_table(face, cff, count, box):
    """What is wrong with the top dict and the font dicts of the new table."""
    top, units = cff.topDictIndex[0], face.it.units
    source = face.source.top.get(cff2_source.MATRIX, [1 / units, 0, 0, 1 / units, 0, 0])
    charset = [".notdef"] + [f"cid{k:05d}" for k in range(1, count)]
    used = {top.FDSelect[k] for k in range(count)}
    tests = {"ROS": tuple(top.ROS) == ("Adobe", "Identity", 0), "FontMatrix": is_near(top.rawDict.get("FontMatrix", [0.001, 0, 0, 0.001, 0, 0]), source), "FontBBox": list(top.FontBBox) == box,
             "the names": len(cff.fontNames) == 1, "global subroutines": len(cff.GlobalSubrs) == 0, "charset": top.numGlyphs == count and [top.charset[k] for k in range(count)] == charset,
             "the FontMatrix of a font dict": all(is_near(it.rawDict.get("FontMatrix", [1, 0, 0, 1, 0, 0]), [1, 0, 0, 1, 0, 0]) for it in top.FDArray),
             "local subroutines": not any("Subrs" in it.Private.rawDict for it in top.FDArray), "unused font dicts": used == set(range(len(top.FDArray)))}
    return [name for name, holds in tests.items() if not holds]


# ---- glyphs

def compare_glyph(report, face, at, glyph, new, metrics, new_path, box):
    """A charstring of the new font: what fontTools and HarfBuzz draw of it, its width, its hints, its advance and its bearing."""
    label, theirs = f"glyph {glyph} at {at}", face.harfbuzz.drawn(glyph)
    report.counts.update(["drawing", "hints", "width", "advance"])
    try:
        ours = drawn(*new)
    except Exception as error:
        report.say("drawing", f"{label}: fontTools doesn't read what is written: {error!r}")
        return
    wanted = rounded(report, face.source, glyph, at, theirs)
    if wanted is None or contours(new_path) != contours(wanted) or contours(ours.path) != contours(wanted):
        report.say("drawing", f"{label}: HarfBuzz draws something else of the source")
    if ours.most > 48:
        report.say("drawing", f"{label}: an operator has more than 48 operands")
    exact = face.source.drawn(glyph, at).hints
    if ours.hints != {kind: these if kind == "masks" else [half_up(edge) for edge in these] for kind, these in exact.items()}:
        report.say("hints", f"{label}: other stems or masks")
    if ours.width != metrics[0]:
        report.say("width", f"{label}: {ours.width} in its charstring, {metrics[0]} in hmtx")
    if metrics != (face.advance(glyph, at), box[0] if box else 0):
        report.say("advance", f"{label}: {metrics}, and not {face.advance(glyph, at)} and the left side of {box}")
    # (without HVAR HarfBuzz 6 has 0, once there are coordinates)
    if b"HVAR" in face.tables and not harfbuzz.is_near_a_half(float(face.exact_advance(glyph, at))) and metrics[0] != face.harfbuzz.advance(glyph):
        report.say("advance", f"{label}: {metrics[0]}, and by HarfBuzz {face.harfbuzz.advance(glyph)}")


def compare_font(report, face, place, data, old, room):
    """A new font beside its source at coordinates; `old` has the old number of each glyph."""
    from fontTools.ttLib import TTFont

    path, at = fonts.put(os.path.join(room, "new.otf"), data), face.at(place)
    report.counts["file"] += 1
    try:
        font = TTFont(io.BytesIO(data), checkChecksums=2)
        tags = set(font.reader.keys())
        for tag in tags:
            font.reader[tag]
    except Exception as error:
        report.say("file", f"at {at}: {error!r}")
        return
    if font.sfntVersion != "OTTO" or tags != {tag for tag in TABLES if tag not in OPTIONAL or tag.encode() in face.tables}:
        report.say("file", f"at {at}: {font.sfntVersion}, tables {sorted(tags)}")
        return
    cff, metrics = font["CFF "].cff, [font["hmtx"].metrics[name] for name in font.getGlyphOrder()]
    top, mine, boxes = cff.topDictIndex[0], HarfBuzz(path), boxes_of(font)
    found = faults_of_headers(face, font, place, [it[0] for it in metrics], boxes) + faults_of_table(face, cff, len(old), around(boxes))
    if found or len(metrics) != len(old):
        report.say("file", f"at {at}: {', '.join(found or ['the number of glyphs'])}")
    face.harfbuzz.place(at)
    privates = {}
    for number, glyph in enumerate(old[:len(metrics)]):
        private = top.FDArray[top.FDSelect[number]].Private
        compare_glyph(report, face, at, glyph, (top.CharStrings.charStringsIndex[number], private), metrics[number], mine.drawn(number), boxes[number])
        pair = top.FDSelect[number], face.source.font_dict(glyph)
        if pair not in privates:
            wanted, ours = face.source.private(pair[1], at), {name: value for name, value in private.rawDict.items() if name not in ("defaultWidthX", "nominalWidthX")}
            privates[pair] = "" if ours == wanted else f"{ours}, and not {wanted}"
        report.counts["private dict"] += 1
        if privates[pair]:
            report.say("private dict", f"of glyph {glyph} at {at}: {privates[pair]}")
    if not is_taken_by_freetype(path, 0, (), range(len(old))) and is_taken_by_freetype(face.path, face.index, at, old):
        report.say("file", f"at {at}: FreeType takes the source alone")


# ---- FreeType

def is_taken_by_freetype(path, index=0, at=(), glyphs=()):
    """Whether FreeType opens a face, and hints these glyphs at 16 pixels an em."""
    import freetype

    try:
        face = freetype.Face(path, index)
        face.set_char_size(16 * 64, 16 * 64, 72, 72)
        if at:
            face.set_var_blend_coords([value / 16384 for value in at])
        for glyph in glyphs:
            face.load_glyph(glyph, freetype.FT_LOAD_NO_BITMAP)
        return True
    except freetype.FT_Exception:
        # (2.12 can't read FDSelect of format 4)
        return False


# ---- faces

def is_too_wide(face, at, glyphs):
    """Whether a glyph has an advance there for which a charstring has no number."""
    return any(face.advance(glyph, at) > WIDEST for glyph in glyphs)


def compare_face(words, path, index, number, room):
    """A face at its default (0) or at a random place, for `words.glyphs` glyphs (0: all, of large ones 300), jumbled."""
    face = Face(path, index)
    report, rng, count = Report(face.label), random.Random(f"{words.seed} {os.path.basename(path)} {index} {number}"), len(face.metrics)
    place = harfbuzz.random_place(face.axes, rng) if number else []
    glyphs = rng.sample(range(count), min(words.glyphs or (count if count <= 5000 else 300), count))
    try:
        compare_font(report, face, place, *subset_at(words.program, path, index, place, glyphs, room), room)
    except (Refused, Broken) as it:
        if is_too_wide(face, face.at(place), glyphs) and str(it) == TOO_LARGE:
            report.counts["too wide"] += 1
        else:
            report.say("answer", f"at {harfbuzz.words_at(place) or 'the default'}: {it}")
    return report
