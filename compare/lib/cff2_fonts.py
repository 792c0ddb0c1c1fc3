"""The CFF2 fonts of the comparisons: large and small ones, as there are none in Debian, made in build/cff2, and those of further folders.

    large.otf     65,535 glyphs: 18 font dicts by FDSelect of format 3, five item variation data, which private dicts and charstrings choose,
                  local and global subroutines with blends inside and around a blend, private dicts that vary, operators of more than 48
                  operands, HVAR with a map, MVAR, avar
    large.ttc     a collection of that face, and of one with the same outlines and other advances
    small-3.otf, small-4.otf, small.ttc   the same with 100 glyphs, by FDSelect of formats 3 and 4

All of it is random, and the same for one seed and one number of glyphs.
"""
import glob
import os
import random

import build
import fonts
import made
from made import BLEND, GLOBAL_CALL, PRIVATE_BLEND, PRIVATE_VSINDEX, VSINDEX, called, fixed, number

GLYPHS, SMALL = 65535, 100
FOLDER = os.path.join(build.BUILD, "cff2")
SMALL_FONTS = [("small-3", SMALL, 3, False), ("small-4", SMALL, 4, True)]
LARGE_FONTS = [("large", GLYPHS, 3, True)]
DICTS = 18
AXES = [("wght", 200, 400, 900), ("wdth", 75, 100, 125)]
HEAVY, LIGHT, LATE, WIDE, NARROW = {"wght": (0, 1, 1)}, {"wght": (-1, -1, 0)}, {"wght": (0, 0.5, 1)}, {"wdth": (0, 1, 1)}, {"wdth": (-1, -1, 0)}
SUPPORTS = [HEAVY, LIGHT, LATE, WIDE, NARROW, {**HEAVY, **WIDE}]
# The regions of each item variation data. (The fourth has none.)
DATA = [[0, 1], [0, 1, 3, 4], [0, 2, 1], [], [0, 1, 2, 3, 4, 5]]
BENDS = {"wght": {-1.0: -1.0, -0.5: -0.375, 0.0: 0.0, 0.25: 0.1875, 0.5: 0.625, 1.0: 1.0}, "wdth": {-1.0: -1.0, 0.0: 0.0, 1.0: 1.0}}
# The rows of HVAR's item variation data, and what MVAR varies.
ROWS = [([0, 1], 200), ([0, 1, 3, 4], 150), ([2], 30)]
METRICS = {"hasc": (31, -12), "hdsc": (-17, 6), "hlgp": (5, -3), "undo": (-8, 4), "unds": (23, -11), "xhgt": (9, -5)}
STACK = 513
# A number of glyphs that follow one another and have one font dict, at most.
GROUP = 200
# How many last glyphs have one row of HVAR, so that its map ends before them.
ALIKE = 20
SUBROUTINES, LARGE_DICT = 40, 1300

# The operators of a path, and how many operands they may have: those of one part, more of the same, and further ones.
PATH = [(5, 2, 2, 0), (6, 1, 1, 0), (7, 1, 1, 0), (8, 6, 6, 0), (24, 6, 6, 2), (25, 8, 2, 0), (26, 4, 4, 1), (27, 4, 4, 1), (30, 4, 4, 1), (31, 4, 4, 1)]
# Those in which the one further operand comes or doesn't.
MAY_HAVE_ONE = (26, 27, 30, 31)
FLEX = [(12, 34, 7), (12, 35, 13), (12, 36, 9), (12, 37, 11)]


def regions_of(supports):
    """The regions as (start, peak, end) in 16384ths for each axis."""
    return [[tuple(round(16384 * end) for end in support.get(tag, (0, 0, 0))) for tag, *_ in AXES] for support in supports]


class Maker:
    """What makes the charstrings."""

    def __init__(self, rng):
        self.rng = rng

    def value(self, most):
        # (randint takes three times as long)
        return int(self.rng.random() * (2 * most + 1)) - most

    def blended(self, values, data, most=9):
        """The operands of an operator: some of them in lots that are blended."""
        regions, out, at = len(DATA[data]), [], 0
        while at < len(values):
            count = min(self.rng.randint(1, 12), len(values) - at)
            lot, at = values[at:at + count], at + count
            out += map(number, lot)
            # (the numbers so far are on the stack, too)
            if self.rng.random() < 0.6 and at + count * regions + 1 <= STACK:
                out += [number(self.value(most)) for _ in range(count * regions)] + [number(count), BLEND]
        return b"".join(out)

    def long(self):
        """How many parts an operator has: mostly few, seldom many."""
        return self.rng.randint(0, 4) if self.rng.random() < 0.97 else self.rng.randint(8, 40)

    def drawing(self, data):
        """One operator of the path, with its operands."""
        if self.rng.random() < 0.06:
            *operator, count = self.rng.choice(FLEX)
            return self.blended([self.value(40) for _ in range(count)], data) + bytes(operator)
        operator, first, more, last = self.rng.choice(PATH)
        count = first + more * self.long() + (last if operator not in MAY_HAVE_ONE or self.rng.random() < 0.3 else 0)
        return self.blended([self.value(40) for _ in range(count)], data) + bytes([operator])

    def move(self, data, most):
        kind = self.rng.choice([21, 21, 22, 4])
        return self.blended([self.value(most) for _ in range(2 if kind == 21 else 1)], data) + bytes([kind])

    def stems(self, count, data):
        """The operands of `count` stems: each edge lies above the one before."""
        return self.blended([self.rng.randint(3, 24) for _ in range(2 * count)], data, most=2)

    def hints(self, data):
        """The stems in front of a path, and how many bytes a mask has (0: there is none)."""
        kind = self.rng.random()
        across, down = (self.rng.randint(1, 3) for _ in range(2)) if self.rng.random() < 0.97 else (30, 27)
        if kind < 0.35:
            return b"", 0
        if kind < 0.6:
            return self.stems(across, data) + b"\x01" + self.stems(down, data) + b"\x03", 0
        size = (across + down + 7) // 8
        return self.stems(across, data) + b"\x12" + self.stems(down, data) + b"\x13" + self.mask(across + down), size

    def mask(self, stems):
        size = (stems + 7) // 8
        return (self.rng.getrandbits(stems) << (8 * size - stems)).to_bytes(size, "big")


class Subroutines:
    """Subroutines of one list: each of one of four kinds, for one item variation data."""

    def __init__(self, maker, count, kinds_of_data, operator, shared=None):
        self.bodies, self.by_kind, self.count, self.operator = [], {}, count, operator
        for k in range(count):
            data = kinds_of_data[k % len(kinds_of_data)]
            kind, body = self.body(maker, k, data, shared)
            self.bodies.append(body)
            self.by_kind.setdefault((kind, data), []).append(k)

    def body(self, maker, k, data, shared):
        """`whole` has an operator with its operands, `inner` calls another one first, `blend` has the deltas of a default that is before
        the call, and `operands` has two operands of an operator that is after the call."""
        kind = maker.rng.choice(["whole", "whole", "inner", "blend", "operands"])
        regions = len(DATA[data])
        if kind == "blend":
            return kind, b"".join(number(maker.value(9)) for _ in range(regions)) + number(1) + BLEND + maker.rng.choice([b"\6", b"\7"])
        if kind == "operands":
            return kind, maker.blended([maker.value(40), maker.value(40)], data)
        before = b""
        if kind == "inner":
            before = self.call(maker, "whole", data) or (shared.call(maker, "whole", data) if shared else None) or b""
        return "whole", before + maker.drawing(data)

    def call(self, maker, kind, data):
        """A call of one of a kind, or None."""
        found = self.by_kind.get((kind, data))
        return called(maker.rng.choice(found), self.count, self.operator) if found else None


def part(maker, data, lists):
    """A part of a path: an operator, or a call of a subroutine."""
    kind = maker.rng.random()
    if kind < 0.55 or not lists:
        return maker.drawing(data)
    chosen = maker.rng.choice(lists)
    if kind < 0.8:
        return chosen.call(maker, "whole", data) or maker.drawing(data)
    if kind < 0.9:
        call = chosen.call(maker, "blend", data)
        return number(maker.value(40)) + call if call else maker.drawing(data)
    call = chosen.call(maker, "operands", data)
    return call + b"\x05" if call else maker.drawing(data)


def charstring(maker, data, lists, front):
    """A glyph: hints, and one to three contours."""
    if maker.rng.random() < 0.01:
        return b""
    hints, size = maker.hints(data)
    out = [front, hints]
    for k in range(maker.rng.randint(1, 3)):
        if k and size and maker.rng.random() < 0.5:
            out.append(b"\x13" + bytes(maker.rng.getrandbits(8) for _ in range(size - 1)) + b"\xe0")
        out.append(maker.move(data, 300 if k == 0 else 80))
        out += [part(maker, data, lists) for _ in range(maker.rng.randint(1, 4))]
        if maker.rng.random() < 0.02:
            out.append(fixed(maker.value(40 * 65536)) + number(maker.value(40)) + b"\x05")
    return b"".join(out)


def private_entries(maker, data, k):
    """The entries of a private dict: zones and stems, some of which vary."""
    regions = len(DATA[data])
    zones = [-12 - k, 12, 500 + k, 14, 180, 12]
    deltas = [maker.value(6) for _ in range(len(zones) * regions)]
    entries = [number(data) + PRIVATE_VSINDEX] if data else []
    entries.append(b"".join(map(number, zones + deltas)) + number(len(zones)) + PRIVATE_BLEND + b"\x06")
    entries.append(number(-220) + number(15) + b"\x07")
    entries.append(b"".join(map(number, [70 + k, *(maker.value(30) for _ in range(regions))])) + number(1) + PRIVATE_BLEND + b"\x0a")
    entries.append(number(80 + k) + b"\x0b")
    entries.append(b"\x1e\x0a\x03\x75\xff\x0c\x09" if k % 3 == 0 else b"")
    entries.append(number(1) + b"\x0c\x11" if k % 4 == 0 else b"")
    return b"".join(entries)


def groups(maker, count):
    """The font dict of each glyph, and the item variation data that its charstring chooses, or None: in groups."""
    dicts, chosen = [], []
    while len(dicts) < count:
        size = min(maker.rng.randint(1, GROUP if count > SMALL else 9), count - len(dicts))
        dicts += [maker.rng.randrange(DICTS)] * size
        chosen += [maker.rng.randrange(len(DATA)) if maker.rng.random() < 0.25 else None] * size
    return dicts, chosen


def table(rng, count, kind, large=True):
    """The CFF2 table of `count` glyphs, with FDSelect of this format."""
    maker = Maker(rng)
    dicts, chosen = groups(maker, count)
    own = [k % len(DATA) for k in range(DICTS)]
    shared = Subroutines(maker, LARGE_DICT + 200 if large else SUBROUTINES, range(len(DATA)), GLOBAL_CALL)
    locals_ = [Subroutines(maker, LARGE_DICT if k == 0 and large else SUBROUTINES * (k % 3), [own[k]], made.CALL, shared) for k in range(DICTS)]
    drawn = []
    for number_, choice in zip(dicts, chosen):
        data = own[number_] if choice is None else choice
        front = b"" if choice is None else number(choice) + VSINDEX
        drawn.append(charstring(maker, data, [locals_[number_], shared], front))
    privates = [(private_entries(maker, own[k], k), locals_[k].bodies) for k in range(DICTS)]
    return made.cff2(drawn, privates, made.select(dicts, kind), shared.bodies, made.store(regions_of(SUPPORTS), DATA))


def metrics_of(rng, count):
    return [(rng.randint(300, 1400), rng.randint(-40, 90)) for _ in range(count)]


def further(rng, count):
    """HVAR, MVAR and avar."""
    rows = [[[rng.randint(-80, 80) for _ in held] for _ in range(many)] for held, many in ROWS]
    indexes = [(outer, rng.randrange(ROWS[outer][1])) for outer in (rng.randrange(len(ROWS)) for _ in range(count))]
    regions, metrics = regions_of(SUPPORTS), sorted(METRICS)
    return [("HVAR", made.advances_vary(made.store(regions, [held for held, _ in ROWS], rows), indexes[:count - ALIKE + 1])),
            ("MVAR", made.metrics_vary(made.store(regions, [[0, 1]], [[METRICS[tag] for tag in metrics]]), metrics)),
            ("avar", made.bends([BENDS[tag] for tag, *_ in AXES]))]


def made_faces(seed, count, kind):
    """Two faces with one CFF2 table: the second has other advances, other characters, and no avar."""
    rng = random.Random(f"{seed} {count}")
    outlines, more = table(rng, count, kind, count > SMALL), further(rng, count)
    first = {0x4E00 + k: 1 + k for k in range(min(count - 1, 20000))}
    second = {code: 1 + (glyph * 7) % (count - 1) for code, glyph in first.items()}
    yield made.cff2_font("Made Large", outlines, metrics_of(rng, count), AXES, more, first)
    yield made.cff2_font("Made Second", outlines, metrics_of(rng, count), AXES, more[:2], second)


# ---- files

def make(with_large):
    """Makes those that aren't there."""
    from fontTools.ttLib import TTCollection

    os.makedirs(FOLDER, exist_ok=True)
    for name, count, kind, with_collection in SMALL_FONTS + LARGE_FONTS * with_large:
        path = os.path.join(FOLDER, f"{name}.otf")
        if os.path.exists(path):
            continue
        faces = list(made_faces("1", count, kind))
        if with_collection:
            collection = TTCollection()
            collection.fonts = faces
            collection.save(os.path.join(FOLDER, name.split("-")[0] + ".ttc"), shareTables=True)
        faces[0].save(path)


def faces(folders, only, most=2 ** 32, with_large=False):
    """The faces with CFF2, of files of at most `most` bytes; of one name the first file counts."""
    make(with_large)
    paths, found = {}, []
    for folder in [FOLDER, *folders]:
        for path in sorted(it for it in glob.glob(os.path.join(folder, "*")) if it.endswith((".otf", ".ttf", ".ttc")) and only in os.path.basename(it)):
            paths.setdefault(os.path.basename(path), path)
    for path in paths.values():
        if os.path.getsize(path) > most or (not with_large and os.path.basename(path).startswith("large.")):
            continue
        data = fonts.content(path)
        found += [(path, index) for index in range(fonts.face_count(data)) if "CFF2" in fonts.directory(data, index)]
    return found
