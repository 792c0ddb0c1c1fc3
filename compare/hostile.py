"""Fonts that ask for as much work as they can: does it grow as input and answer do? hostile --only WORD

Each family is made at half its size, at its size and at twice that (--short halves these): what takes a call of the C library of a processor, and what does
it hold at most? (tests/test_files.py has lists, batches and names of the program.) A family fails where from half to twice the size the time, or the bytes held, for each byte of input and answer grow by more than
GROWTH, where it takes more than SECONDS and 20 microseconds for each byte, or holds more than HELD and 64 bytes for each byte, and where it doesn't end. The
families of BOUND run as many tokens or steps as the limits let them; these have to end.
"""
import os
import subprocess
import sys
import tempfile

import build
import fonts
import made
import report as reports
from made import number, u16s, u32s

# By how much a byte may cost more at twice the size than at half, where a run takes or holds so much at least.
GROWTH, LEAST_SECONDS, LEAST_HELD = 2.5, 0.03, 2 ** 26
SECONDS, HELD, ENDLESS = 2, 2 ** 28, 60
LIMITS = "1000000,64,67108864"
# What these cost goes by tokens or steps.
BOUND = {"tree of subroutines", "numbers of five bytes", "masks of stems", "one outline of composites"}


# ---- what fonts are made of

def static(count, **tables):
    """A TrueType font of `count` glyphs, of which the first has an outline."""
    outline = u16s(1, 0, 0, 100, 100, 2, 0) + b"\1\1\1" + u16s(0, 100, 65486, 0, 0, 100) + b"\0"
    usual = {"head": made.HEAD[:18] + u16s(1000) + made.HEAD[20:], "hhea": u32s(0x10000) + u16s(800, 65336) + bytes(26) + u16s(1),
             "maxp": u32s(0x10000) + u16s(count) + bytes(26), "hmtx": u16s(500, 0) + bytes(2 * count - 2), "glyf": outline,
             "loca": u32s(0, *[len(outline)] * count), "post": u32s(0x30000) + bytes(28), "name": u16s(0, 0, 6)}
    return made.font(sorted((tag, body) for tag, body in {**usual, **tables}.items() if body is not None))


def fvar(axes, instances=b"", count=0):
    records = b"".join((b"wght" if k == 0 else u32s(0x41000000 + k)) + u32s(100 << 16, 400 << 16, 900 << 16) + u16s(0, 256) for k in range(axes))
    return u16s(1, 0, 16, 2, axes, 20, count, min(4 + 4 * axes, 65535)) + records + instances


def store(axes, regions):
    """A region of `axes` axes, and an item of `regions` indexes of it."""
    return made.store([[(0, 0, 0)] * axes], [[0] * regions], [[[0] * regions]])


def varied(axes, count, **tables):
    offsets = 20 + 4 * (count + 1)
    gvar = u16s(1, 0, axes, 0) + u32s(offsets) + u16s(count, 1) + u32s(offsets) + bytes(4 * (count + 1))
    return static(count, **{"fvar": fvar(axes), "gvar": gvar, **tables})


def hvar(axes, regions, count=200):
    return varied(axes, count, HVAR=made.advances_vary(store(axes, regions), [(0, 0)]))


def mvar(size):
    tags = sorted([b"hasc", b"hdsc", b"hlgp", b"hcrs", b"hcrn", b"hcof", b"undo", b"unds", b"xhgt", b"cpht"])
    return varied(size, 4, MVAR=u16s(1, 0, 0, 8, len(tags), 12 + 8 * len(tags)) + b"".join(it + bytes(4) for it in tags) + store(size, 6 * size))


def tuples(size):
    count, shared, data, first = 200, bytes(2 * size - 2) + u16s(16384), u16s(size, 4 + 4 * size) + bytes(4 * size), 824
    gvar = u16s(1, 0, size, 1) + u32s(first) + u16s(count, 1) + u32s(first + len(shared)) + u32s(0, *[len(data)] * count)
    return varied(size, count, gvar=gvar + shared + data)


def font2(count, table, **tables):
    """A font with a table `CFF2` and an axis."""
    return static(count, **{"fvar": fvar(1), "CFF2": table, "glyf": None, "loca": None, **tables}).replace(b"\0\1\0\0", b"OTTO", 1)


def vvar(size):
    """One item of all advance heights, and of all origins by `VORG`."""
    held = store(size, 6 * size)
    table = u16s(1, 0) + u32s(24, 24 + len(held), 0, 0, 24 + len(held)) + held + u16s(0, 1) + b"\0"
    return font2(200, made.cff2([b""] * 200), fvar=fvar(size), VVAR=table, VORG=u16s(1, 0, 800, 0), vhea=u32s(0x10000) + bytes(30) + u16s(1), vmtx=u16s(1000, 0) + bytes(398))


def blends(size):
    """`size` regions, and `size` blends after a `vsindex`."""
    glyph = number(1) + made.VSINDEX + (made.called(0, 1, made.GLOBAL_CALL) * (size // 100))
    held = made.store([[(0, 0, 0)]], [[0], [0] * size])
    return font2(3, made.cff2([b"", glyph, b""], subroutines=[(number(0) + made.BLEND) * 100], variation=held))


def private_blends(size):
    entries = number(1) + made.PRIVATE_VSINDEX + (number(0) + made.PRIVATE_BLEND) * size
    return font2(1, made.cff2([b""], [(entries, ())], variation=made.store([[(0, 0, 0)]], [[0], [0] * size])))


def keyed(count, dicts=(b"",), times=1, select=None, charstring=b"\x0e"):
    table = made.cff([charstring] * count, dicts=[(it, ()) for it in dicts], select=select or bytes(count + 1), times=times)
    return static(count, **{"CFF ": table, "glyf": None, "loca": None}).replace(b"\0\1\0\0", b"OTTO", 1)


def select3(size):
    """Ranges of FDSelect that don't ascend."""
    ranges = (u16s(size - 1) + b"\0") * (size - 2) + u16s(0) + b"\0"
    return keyed(size, select=b"\3" + u16s(size - 1) + ranges + u16s(size))


def named(size, length=255):
    """`size` glyphs with names of their own, or of one name that all share."""
    own = range(size) if length else [0] * size
    return static(size, post=u32s(0x20000) + bytes(28) + u16s(size, *[258 + k for k in own]) + (b"\xff" + b"A" * 255) * (size if length else 1))


def records(size):
    heads = b"".join(u16s(3, 1, 0x409, 1 + k % 9, 12, k) for k in range(size))
    return static(3, name=u16s(0, size, 6 + 12 * size) + heads + b"".join(u16s(k) for k in range((size + 12) // 2 + 1)))


def groups(size):
    """Groups of `cmap`, format 12, that no character reaches."""
    table = u16s(12, 0) + u32s(16 + 12 * size, 0, size) + b"".join(u32s(0x110000 + k, 0x110000 + k, 1) for k in range(size))
    return static(10, cmap=u16s(0, 1, 3, 10) + u32s(12) + table)


def segments(size):
    return static(10, cmap=u16s(0, 1, 3, 1) + u32s(12) + u16s(4, 0, 0, 2 * size, 0, 0, 0) + bytes(8 * size + 16))


def tree(size, depth=16, leaf=b"\x0b"):
    """Glyphs that call a subroutine, which calls the next one twice, and so on."""
    bodies = [(number(k + 1 - 107) + b"\x1d") * 2 + b"\x0b" for k in range(depth)] + [leaf]
    return made.cff_font(made.cff([number(-107) + b"\x1d\x0e"] * size, subroutines=bodies), [("head", made.HEAD), ("maxp", u32s(0x5000) + u16s(size))])


def crowd(size):
    """Each even number is a glyph of all the bytes of `glyf`, which is put together of all of them."""
    outline = made.composite([2 * k for k in range(size)])
    return made.font([("glyf", outline), ("head", made.HEAD), ("loca", u32s(*[0, len(outline)] * size))])


def wide(size):
    metrics = b"".join(u16s(k * 7919 % 3000, 0) for k in range(size))
    return static(size, hhea=(head := u32s(0x10000) + u16s(800, 65336) + bytes(26) + u16s(size)), vhea=head, hmtx=metrics, vmtx=metrics)


def shown(_):
    """A font for runs that are long."""
    return fonts.content(os.path.join(build.ROOT, "bindings", "rust", "tests", "data", "made.ttf"))


# ---- the families: name, maker, size, and the call with its glyphs

AT = "wght=650"
CALLS = [
    ("font dicts with one private dict", lambda n: keyed(3, [b"\x8b\x0b" * 5 * n], n), 800, "subset 0-1 -"),
    ("the same for a PDF", lambda n: keyed(3, [b"\x8b\x0b" * 5 * n], n), 300, "pdf 0-1 -"),
    ("blends of many regions", blends, 8000, f"subset 1 {AT}"), ("blends of a private dict", private_blends, 8000, f"subset 0 {AT}"),
    ("HVAR, axes", lambda n: hvar(n, 6 * n), 5000, f"subset 0-19 {AT}"), ("HVAR, glyphs", lambda n: hvar(1, n, n), 16000, f"subset 0-{{last}} {AT}"),
    ("VVAR", vvar, 2000, f"columns 1-9 {AT}"), ("MVAR", mvar, 2000, f"pdf 1-2 {AT}"), ("gvar, tuples and axes", tuples, 2000, f"subset 0 {AT}"),
    ("FDSelect out of order", select3, 16000, "subset 0-{last} -"), ("names of glyphs", named, 16000, "subset 0-{last} -"),
    ("one name of all glyphs", lambda n: named(n, 0), 16000, "subset 0-{last} -"), ("names of the font", records, 2500, "subset 0 -"),
    ("groups of cmap", groups, 40000, "glyphs 0-{size} -"), ("segments of cmap", segments, 8000, "glyphs 1-{size} -"),
    ("widths and ToUnicode", wide, 16000, "pdf 1-{last} -"), ("heights", wide, 16000, "columns 1-{last} -"), ("a chain of composites", lambda n: made.truetype([made.composite([k + 1]) for k in range(n - 1)] + [b""]), 16000, "subset 0 -"),
    ("glyphs of a run", shown, 32768, "run 1-{size} -"), ("glyphs of a cluster", shown, 10000, "cluster 1-{size} -"), ("characters of a glyph", shown, 500000, "characters 1-{size} -"),
    ("tree of subroutines", tree, 20, "subset 0-{last} -"), ("numbers of five bytes", lambda n: tree(n, 12, b"\xff\1\2\3\4" * 8 + b"\5\x0b"), 20, "subset 0-{last} -"),
    ("masks of stems", lambda n: tree(n, 12, b"\x8b\x8b\x01\x13\xaa\x0b"), 20, "subset 0-{last} -"), ("one outline of composites", crowd, 2000, "subset 0 -"),
]
def by_library(library, path, call, size):
    """The seconds of a call, the bytes that it returns, those that it holds, and the name of its error or `-` (lib/cost.py)."""
    call, glyphs, at = call.format(last=size - 1, size=size).split()
    env = {**os.environ, "LIBRARY": library, "LD_PRELOAD": os.path.join(build.BUILD, "refuse.so")}
    words = [sys.executable, os.path.join(build.HERE, "lib", "cost.py"), call, path, "0", glyphs, at, LIMITS]
    took, answered, held, error = subprocess.run(words, env=env, stdout=subprocess.PIPE, text=True, check=True, timeout=ENDLESS).stdout.split()
    return int(took) / 1e9, int(answered), int(held), error


def measure(report, library, name, make, usual, call):
    """Measures a family, and says where it costs too much."""
    cells, rows = [], []
    for size in (usual // 2, usual, 2 * usual):
        with tempfile.TemporaryDirectory(prefix="hostile-") as room:
            path = fonts.put(os.path.join(room, "in"), make(size))
            length = os.path.getsize(path)
            try:
                took, answered, held, error = by_library(library, path, call, size)
            except subprocess.SubprocessError as ended:
                report.say(name, f"size {size}: {ended}"[:200])
                return
        # (under CANARY twice the size takes 60 times as long)
        took *= 60 if build.CANARY and size > usual else 1
        work = length + answered
        rows.append((took / work, held / work))
        cells.append(f"{work:,} bytes: {1000 * took:.0f} ms, {held / 2 ** 20:.0f} MB" + f", {error}" * (error != "-"))
        if name not in BOUND and (took > SECONDS + work * 20e-6 or held > HELD + 64 * work):
            report.say(name, f"size {size}, {cells[-1]}")
    report.counts["families"] += 1
    print(f"{name}: {'; '.join(cells)}", flush=True)
    for of, what, is_much in ((0, "time", took > LEAST_SECONDS), (1, "memory", held > LEAST_HELD)):
        if is_much and rows[2][of] > GROWTH * rows[0][of] and name not in BOUND:
            report.say(name, f"the {what} of a byte grows {rows[2][of] / rows[0][of]:.1f} times from half to twice the size")


def main():
    words = reports.words()
    build.gcc("refuse.c", "-shared", "-fPIC", to="refuse.so")
    library, report = build.library(), reports.Report("hostile")
    for name, make, size, call in CALLS:
        if words.only in name:
            measure(report, library, name, make, size // (2 if words.short else 1), call)
    reports.end([report], report.counts["families"], f"{report.counts['families']} families at three sizes")
