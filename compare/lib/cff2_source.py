"""CFF2 fonts at coordinates: a second reading in exact fractions (OpenType, "CFF2"), whose charstrings fontTools runs, and HarfBuzz.

As the program does, it reads what it can of a damaged table: a dict ends before the first byte that can't be read, a reserved one (31, 255) is an operator
without a meaning, the last entry of an operator counts, and a font dict that names no private dict has an empty one. Item variation data are
read where a charstring needs them."""
import fractions
import functools
import itertools
import math
import os

import fonts
import pdf_file
import reading
from harfbuzz import HarfBuzz, contours, half_up, is_near_a_half
from reading import cut, need, number

# A contour whose end is as near to its beginning is closed, in floats.
CLOSED = 0.01
# Operators of dicts.
CHARSTRINGS, MATRIX, SELECT, DICTS, STORE, PRIVATE, SUBROUTINES, VSINDEX, BLEND = (17,), (12, 7), (12, 37), (12, 36), (24,), (18,), (19,), (22,), (23,)
# The entries of a private dict that CFF and CFF2 share: arrays of edges, and numbers.
ARRAYS = {(6,): "BlueValues", (7,): "OtherBlues", (8,): "FamilyBlues", (9,): "FamilyOtherBlues", (12, 12): "StemSnapH", (12, 13): "StemSnapV"}
NUMBERS = {(10,): "StdHW", (11,): "StdVW", (12, 9): "BlueScale", (12, 10): "BlueShift", (12, 11): "BlueFuzz", (12, 17): "LanguageGroup", (12, 18): "ExpansionFactor"}
# The bytes of a range's first glyph and of its font dict, by FDSelect's format; and the reserved bytes that end an entry as an operator does.
RANGES, RESERVED = {3: (2, 1), 4: (4, 2)}, {31, 255}


class Operands(list):
    """Operands, of which those with a fraction are fractions and no floats."""

    def append(self, value):
        super().append(fractions.Fraction(value) if isinstance(value, float) else value)


@functools.cache
def drawer():
    """A class that draws a charstring, and keeps its stems and masks. (It needs fontTools, which may have to be installed first.)"""
    from fontTools.misc import psCharStrings

    class Drawer(psCharStrings.T2OutlineExtractor):
        def reset(self):
            super().reset()
            self.operandStack, self.path, self.most = Operands(), [], 0
            self.hints = {"horizontal": [], "vertical": [], "masks": []}

        # (it is its own pen)
        def moveTo(self, p):
            self.path.append(("move_to", *p))

        def lineTo(self, p):
            self.path.append(("line_to", *p))

        def curveTo(self, *points):
            self.path.append(("cubic_to", *[value for p in points for value in p]))

        def closePath(self):
            self.sawMoveTo = 0

        def popall(self):
            self.most = max(self.most, len(self.operandStack))
            return super().popall()

        def stems(self, kind):
            edges = self.popallWidth()
            self.hintCount += len(edges) // 2
            self.hints[kind] += itertools.accumulate(edges)

        def op_hstem(self, index):
            self.stems("horizontal")

        op_hstemhm = op_hstem

        # (operands before a first mask are vertical stems, too)
        def countHints(self):
            self.stems("vertical")

        def op_hintmask(self, index, kind="hintmask"):
            mask, index = super().op_hintmask(index)
            self.operandStack.clear()
            self.hints["masks"].append((kind, mask))
            return mask, index

        def op_cntrmask(self, index):
            return self.op_hintmask(index, "cntrmask")

        # (fontTools takes the private dict's data where those of a charstring have no regions)
        def op_vsindex(self, index):
            self.vsIndex = self.pop()

        def op_blend(self, index):
            count = self.pop()
            values = blended(self.operandStack, count, len(self.source.held(self.vsIndex)))
            self.operandStack += [value + self.source.share(self.vsIndex, deltas, self.at) for value, deltas in values]

    return Drawer


def blended(operands, count, regions):
    """Takes `count` blended values off a stack, each with its deltas."""
    base = len(operands) - count * (regions + 1)
    values, deltas = operands[base:base + count], operands[base + count:]
    del operands[base:]
    return [(value, deltas[k * regions:(k + 1) * regions]) for k, value in enumerate(values)]


def drawn(charstring, private, subroutines=(), source=None, at=None, vsindex=0):
    """A charstring as it is drawn: of CFF with its width, of CFF2 (a source) exactly at coordinates."""
    made = drawer()(None, getattr(private, "Subrs", []), subroutines, getattr(private, "nominalWidthX", 0), getattr(private, "defaultWidthX", 0), private)
    made.pen = made
    if source:
        # (a CFF2 charstring has no width)
        made.source, made.at, made.gotWidth, made.vsIndex = source, at, 1, vsindex
    made.execute(charstring)
    return made


# ---- the second reading

def entries(data):
    """The operators of a dict with the operands before them, of what can be read."""
    from fontTools.misc.psCharStrings import cffDictOperandEncoding as encoding

    operands, at = [], 0
    try:
        while at < len(data):
            if data[at] > 27 and data[at] not in RESERVED:
                value, at = encoding[data[at]](None, data[at], data, at + 1)
                operands.append(value)
            else:
                size = 2 if data[at] == 12 else 1
                yield tuple(cut(data, at, size)), operands
                operands, at = [], at + size
    except Exception:
        pass


def index(table, at):
    """The first byte of each entry of an INDEX whose count has four bytes, and the one after its last."""
    count = number(table, at, 4)
    if not count:
        return []
    size = number(table, at + 4, 1)
    ends = [number(table, at + 5 + k * size, size) for k in range(count + 1)]
    first = at + 4 + (count + 1) * size
    return [(first + begin, first + end) for begin, end in zip(ends, ends[1:])]


def offset(entry):
    (value,) = entry
    return int(value)


class Table:
    """The table CFF2 of a font."""

    def __init__(self, table):
        size, top_size = number(table, 2, 1), number(table, 3)
        self.table, self.top, self.scalars = table, dict(entries(cut(table, size, top_size))), {}
        self.charstrings, self.shared = index(table, offset(self.top[CHARSTRINGS])), self.subroutines(size + top_size)
        self.dicts = index(table, offset(self.top[DICTS]))
        self.privates = functools.cache(self.private_dict)

    def charstring(self, first, last):
        from fontTools.misc.psCharStrings import T2CharString

        return T2CharString(bytecode=self.table[first:last])

    def subroutines(self, at):
        return [self.charstring(*it) for it in index(self.table, at)]

    def font_dict(self, glyph):
        """The number of a glyph's font dict by FDSelect."""
        if SELECT not in self.top:
            return 0
        table, at = self.table, offset(self.top[SELECT])
        kind = number(table, at, 1)
        if kind == 0:
            return number(table, at + 1 + glyph, 1)
        wide, narrow = RANGES[kind]
        first, size = at + 1 + wide, wide + narrow
        for record in range(first, first + size * number(table, at + 1, wide), size):
            if number(table, record, wide) <= glyph < number(table, record + size, wide):
                return number(table, record + wide, narrow)
        raise LookupError(f"no font dict of glyph {glyph}")

    def place(self, font_dict):
        """The first byte of a private dict and its size."""
        first, last = self.dicts[font_dict]
        size, at = map(int, dict(entries(self.table[first:last])).get(PRIVATE, (0, 0)))
        return at, size

    def private_dict(self, font_dict):
        """The entries of a private dict, and its subroutines."""
        at, size = self.place(font_dict)
        found = dict(entries(cut(self.table, at, size)))
        return found, self.subroutines(at + offset(found[SUBROUTINES])) if SUBROUTINES in found else []

    def held(self, data):
        """The numbers of the regions of item variation data."""
        store = offset(self.top[STORE]) + 2
        need(data < number(self.table, store + 6))
        first = store + number(self.table, store + 8 + 4 * data, 4)
        return [number(self.table, first + 6 + 2 * k) for k in range(number(self.table, first + 4))]

    def scalar(self, region, at):
        """The scalar of a region at normalized coordinates, as a fraction (OpenType, "Algorithm for interpolation of instance values")."""
        store, product = offset(self.top[STORE]) + 2, fractions.Fraction(1)
        listed = store + number(self.table, store + 2, 4)
        need(region < number(self.table, listed + 2))
        for axis, coordinate in zip(range(number(self.table, listed)), at):
            first = listed + 4 + 6 * (number(self.table, listed) * region + axis)
            start, peak, end = (number(self.table, first + 2 * k, 2, True) for k in range(3))
            if start > peak or peak > end or (start < 0 < end and peak != 0) or peak == 0 or coordinate == peak:
                continue
            if coordinate <= start or coordinate >= end:
                return fractions.Fraction(0)
            product *= fractions.Fraction(coordinate - start, peak - start) if coordinate < peak else fractions.Fraction(end - coordinate, end - peak)
        return product

    def share(self, data, deltas, at):
        """The sum of the deltas by the scalars of the regions of item variation data."""
        key = (data, tuple(at))
        if key not in self.scalars:
            scalars = [self.scalar(region, at) for region in self.held(data)]
            # (with one denominator, as sums of whole numbers are fast)
            unit = math.lcm(*(it.denominator for it in scalars))
            self.scalars[key] = unit, [int(it * unit) for it in scalars]
        unit, scalars = self.scalars[key]
        return fractions.Fraction(sum(s * delta for s, delta in zip(scalars, deltas)), unit)

    def drawn(self, glyph, at):
        found, subroutines = self.privates(self.font_dict(glyph))
        private = type("Private", (), {"Subrs": subroutines})
        return drawn(self.charstring(*self.charstrings[glyph]), private, self.shared, self, at, offset(found.get(VSINDEX, [0])))

    def private(self, font_dict, at):
        """The kept entries of a private dict: each edge of an array that is blended, and each number, rounded once. One that can't be keeps its default."""
        first, size = self.place(font_dict)
        found, before, data = {}, [], 0
        for operator, operands in entries(self.table[first:first + size]):
            operands, before = before + operands, []
            if operator == VSINDEX:
                data = offset(operands)
            elif operator == BLEND:
                count = operands.pop()
                values = blended(operands, count, len(self.held(data)))
                before = operands + values
            elif operator in ARRAYS or operator in NUMBERS:
                pairs = [it if isinstance(it, tuple) else (it, None) for it in operands]
                usual = list(itertools.accumulate(value for value, _ in pairs))
                exact = list(itertools.accumulate(value + (self.share(data, deltas, at) if deltas is not None else 0) for value, deltas in pairs))
                is_well = all(isinstance(it, int) for it in usual) and all(abs(b - a) <= 32768 for a, b in zip([0, *exact], exact))
                edges = [half_up(it) for it in exact] if is_well else usual
                found.update({ARRAYS[operator]: edges} if operator in ARRAYS else {NUMBERS[operator]: edges[-1]} if edges else {})
        return found


def rounded(report, source, glyph, at, theirs):
    """HarfBuzz's path, each coordinate rounded once; near a half by exact fractions. None where those have other parts."""
    whole = [part for contour in contours(theirs, CLOSED) for part in contour]
    if not any(is_near_a_half(value) for part in whole for value in part[1:]):
        return [(part[0], *map(half_up, part[1:])) for part in whole]
    exact = [part for contour in contours(source.drawn(glyph, at).path, CLOSED) for part in contour]
    if [part[0] for part in exact] != [part[0] for part in whole]:
        return None
    report.counts["halves"] += sum(is_near_a_half(value) for part in whole for value in part[1:])
    return [(part[0], *[half_up(b if is_near_a_half(a) else a) for a, b in zip(part[1:], twin[1:])]) for part, twin in zip(whole, exact)]


class Face:
    """A face with CFF2, as the second readings (of `HVAR` and `MVAR`: reading.py) and HarfBuzz have it."""

    def __init__(self, path, index=0):
        from fontTools.ttLib import TTFont

        self.path, self.index, self.it, self.font = path, index, pdf_file.Face(fonts.content(path), index), TTFont(path, lazy=True, fontNumber=index)
        self.tables = {tag.encode("latin-1"): table for tag, table in self.it.tables.items()}
        self.source, self.harfbuzz = Table(self.tables[b"CFF2"]), HarfBuzz(path, index)
        self.metrics = [self.font["hmtx"].metrics[name] for name in self.font.getGlyphOrder()]
        self.axes, self.label = fonts.axes(fonts.content(path), index), os.path.basename(path) + f" #{index}" * (path.endswith(".ttc"))

    def at(self, place):
        """The normalized coordinates in 16384ths."""
        return reading.place_of(self.tables, reading.settings_of(place))

    def exact_advance(self, glyph, at):
        """The advance at coordinates before rounding."""
        delta = reading.advance_delta(self.tables[b"HVAR"], at, glyph) if b"HVAR" in self.tables else 0
        return fractions.Fraction(self.metrics[glyph][0] * reading.UNIT + delta, reading.UNIT)

    def advance(self, glyph, at):
        return max(half_up(self.exact_advance(glyph, at)), 0)
