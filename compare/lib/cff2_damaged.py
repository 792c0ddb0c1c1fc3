"""Damaged CFF2 fonts, and what the program may answer of them: what cff2.py takes.

A new font has to draw what HarfBuzz draws of the damaged copy, each coordinate rounded once. Where HarfBuzz draws something else, as it goes on
where a table is broken and knows other limits, it has to be what the second reading has (cff2_source.py), in exact fractions. The advance is
HarfBuzz's, or that of the second reading (reading.py).
A private dict that has an operator without its operand is in the new font as it is in the copy: FreeType has to open neither.
"""
import os
import random
import resource
import tempfile

import cff2_source
import damage
import fonts
import harfbuzz
import reading
from cff2_source import CLOSED, Face
from cff2_whole import Broken, Refused, is_taken_by_freetype, subset_at
from harfbuzz import HarfBuzz, contours, half_up
from report import Report

DAMAGED = ["CFF2", "fvar", "avar", "HVAR"]
GLYPHS, SECONDS = 12, 1
SECOND = "the second reading"
# HarfBuzz's floats have 24 bits, and a coordinate is a sum of many.
NEAR, PART = 0.001, 2 ** -19
# The copies of a piece.
PIECE = 50


def ranges(face, glyphs):
    """The parts of the table CFF2 that a damage is aimed at, as names with their first byte and the one after the last."""
    source, size = face.source, len(face.tables[b"CFF2"])
    found = [("front", 0, 64), *(("charstring", *source.charstrings[glyph]) for glyph in glyphs)]
    for k in range(len(source.dicts)):
        first, length = source.place(k)
        found += [("private dict", first, first + length)]
        first += cff2_source.offset(source.privates(k)[0].get(cff2_source.SUBROUTINES, [0]))
        found += [("subroutines", first, first + 400)] * (cff2_source.SUBROUTINES in source.privates(k)[0])
    for name, operator in (("VarStore", cff2_source.STORE), ("FDSelect", cff2_source.SELECT), ("FDArray", cff2_source.DICTS), ("CharStrings", cff2_source.CHARSTRINGS)):
        found += [(name, at, at + 300) for at in map(int, source.top.get(operator, ()))]
    return [(name, first, min(last, size)) for name, first, last in found if first < min(last, size)]


def damaged(rng, data, face, glyphs):
    """A copy with a part changed, and what was done to it."""
    tables = fonts.directory(data, face.index)
    tag = "CFF2" if rng.random() < 0.6 else rng.choice([it for it in DAMAGED if it in tables])
    at, size = tables[tag]
    first, last, name = at, at + size, tag
    if tag == "CFF2":
        found = ranges(face, glyphs)
        name = rng.choice(sorted({it[0] for it in found}))
        _, first, last = rng.choice([it for it in found if it[0] == name])
        first, last = at + first, at + last
    copy = bytearray(data)
    done = damage.changed(rng, copy, first, last)
    return bytes(copy), f"{name}: {done}"


# ---- what is drawn

def agree(ours, theirs):
    """Whether whole coordinates are those of a path, each rounded once; where one is near a half, to either side."""
    def near(value):
        slack = NEAR + abs(value) * PART
        return {half_up(value - slack), half_up(value + slack)}

    choices = [part for contour in contours(theirs, CLOSED) for part in contour]
    if [part[0] for part in ours] != [part[0] for part in choices]:
        # (a line back may be closed by rounding alone)
        choices = [part for contour in contours([(part[0], *map(half_up, part[1:])) for part in choices]) for part in contour]
        if [part[0] for part in ours] != [part[0] for part in choices]:
            return False
    return all(a in near(b) for one, other in zip(ours, choices) for a, b in zip(one[1:], other[1:]))


class Copy:
    """A damaged copy, as HarfBuzz and the second readings have it."""

    def __init__(self, path, face, place):
        self.path, self.index, self.metrics, data = path, face.index, face.metrics, fonts.content(path)
        self.tables = {tag.encode("latin-1"): table for tag, table in fonts.tables_of(data, face.index).items()}
        self.at = reading.place_of(self.tables, reading.settings_of(place))
        self.harfbuzz = HarfBuzz(path, face.index)
        self.harfbuzz.place(self.at)

    def draws(self, glyph, ours):
        """Who draws this of a glyph: HarfBuzz, the second reading, or nobody."""
        if agree(ours, self.harfbuzz.drawn(glyph)):
            return "HarfBuzz"
        try:
            return SECOND if agree(ours, cff2_source.Table(self.tables[b"CFF2"]).drawn(glyph, self.at).path) else "nobody"
        except Exception:
            return "nobody"

    def has_advance(self, glyph, advance):
        """Whether an advance is HarfBuzz's, or that of the second reading."""
        delta = reading.advance_delta(self.tables[b"HVAR"], self.at, glyph) if b"HVAR" in self.tables else 0
        return advance in (max(half_up(self.metrics[glyph][0] + delta / reading.UNIT), 0), self.harfbuzz.advance(glyph))


def judge(report, copy, data, old, room, label):
    """Whether a new font is what the damaged copy draws."""
    path = fonts.put(os.path.join(room, "answer.otf"), data)
    new = HarfBuzz(path)
    for number, glyph in enumerate(old):
        ours = [part for contour in contours(new.drawn(number)) for part in contour]
        who = copy.draws(glyph, ours)
        if who == "nobody" and not is_taken_by_freetype(path) and not is_taken_by_freetype(copy.path, copy.index):
            report.counts["opened by nobody"] += 1
            return
        report.counts[f"drawn as by {who}"] += 1
        if who == "nobody":
            report.say("damage", f"{label}: glyph {glyph} is drawn otherwise")
            return
        try:
            sound = copy.has_advance(glyph, new.advance(number))
        except reading.Fault as it:
            report.say("damage", f"{label}: glyph {glyph} has an advance, and not {it.args[0]}")
            return
        if not sound:
            report.say("damage", f"{label}: glyph {glyph} has an advance of {new.advance(number)}")
            return


# ---- pieces

def spent():
    """The seconds on a processor of the programs that have ended."""
    used = resource.getrusage(resource.RUSAGE_CHILDREN)
    return used.ru_utime + used.ru_stime


def one_copy(words, report, face, data, rng, room, label):
    count = len(face.metrics)
    place, glyphs = harfbuzz.random_place(face.axes, rng), rng.sample(range(count), min(GLYPHS, count))
    made, done = damaged(rng, data, face, glyphs)
    path = fonts.put(os.path.join(room, "copy"), made)
    report.counts["copies"] += 1
    before = spent()
    try:
        answer, old = subset_at(words.program, path, face.index, place, glyphs, room)
    except Refused as it:
        report.counts["refused"] += 1
        report.counts[str(it)] += 1
        return
    except Broken as it:
        report.say("damage", f"{label}, {done}: {it}")
        return
    finally:
        took = spent() - before
    if took > SECONDS:
        report.say("damage", f"{label}, {done}: {took:.1f} seconds")
    try:
        copy = Copy(path, face, place)
    except reading.Fault as it:
        report.say("damage", f"{label}, {done}: answered, and not {it.args[0]}")
        return
    judge(report, copy, answer, old, room, f"{label}, {done}")


def piece(words, path, index, number):
    """Damaged copies of a face."""
    face = Face(path, index)
    report, rng = Report(face.label), random.Random(f"{words.seed} {os.path.basename(path)} {index} {number}")
    data = fonts.content(path)
    with tempfile.TemporaryDirectory(prefix="damaged-") as room:
        for k in range(min(PIECE, words.copies)):
            one_copy(words, report, face, data, rng, room, f"piece {number}, copy {k}")
    return report
