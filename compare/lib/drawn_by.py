"""Subsets in PDF files, drawn by three PDF readers."""
import functools
import os
import re
import struct
import subprocess

import build
import fonts
from pdf_file import Pdf, embedded, pages
from pdf_readers import READERS, drawn, ink_apart, is_blank

PACKAGES = ["mupdf-tools", "poppler-utils", "ghostscript", "python3-pil"]
CANARY = build.Canary()
PAGE = (480, 560)
# Points: the grid's distance and letters, and the letters of the line.
CELL, GRID, LINE = 56, 32, 10
# Without hinting and names: the words of the program.
BARE = ["--no-hinting", "--no-names", "--no-glyph-names"]


class Refused(Exception):
    """The program refused the font; what it said."""


# What reading a source that is cut or is no font comes to.
UNREADABLE = (OSError, KeyError, IndexError, struct.error)


@functools.lru_cache(maxsize=None)
def program():
    return build.program()


def subset(font, index, glyphs, out, bare=False, more=()):
    """The new number of each glyph, and the widths of the new glyphs as the text of `/W`."""
    words = [program(), *more, *(BARE if bare else []), "--widths", font, out, str(index), ",".join(map(str, glyphs))]
    answer = subprocess.run(words, capture_output=True, text=True)
    if answer.returncode:
        raise Refused(answer.stderr.strip())
    *lines, widths = answer.stdout.splitlines()
    numbers = {int(old): int(new) for old, new in (line.split(" -> ") for line in lines)}
    if CANARY.is_due:
        # (two glyphs of the first answer under each other's number)
        one, other = glyphs[:2]
        CANARY.is_due, numbers[one], numbers[other] = False, numbers[other], numbers[one]
    return numbers, widths


def cells(count, page=PAGE):
    """Where `count` glyphs of the grid are, in points from the page's left lower corner."""
    across = page[0] // CELL
    return [(12 + CELL * (place % across), page[1] - CELL * (place // across + 1)) for place in range(count)]


def grid(codes, page=PAGE, lean=0):
    """The first page: each code in a cell of its own."""
    text = ["BT"]
    for code, (x, y) in zip(codes, cells(len(codes), page)):
        text.append(f"/F0 {GRID} Tf 1 {lean} 0 1 {x} {y} Tm <{code:04X}> Tj")
    return "\n".join(text + ["ET"])


def line_by_widths(codes, y=500, lean=0):
    """The second page of the subset: one string, moved on by `/W`."""
    return f"BT /F0 {LINE} Tf 1 {lean} 0 1 20 {y} Tm <{''.join(f'{code:04X}' for code in codes)}> Tj ET"


def line_of(face, glyphs):
    """As many of the glyphs as a line holds, and where each begins after its start, in points."""
    held, places, x = [], [], 0.0
    for glyph in glyphs:
        advance = face.advance(glyph) * LINE / face.units
        if x + advance > PAGE[0] - 60:
            break
        held.append(glyph)
        places.append(x)
        x += advance
    return held, places


def write(folder, face, program, widths, contents, page=PAGE):
    """A PDF file that embeds a font, with two pages; its path."""
    pdf = Pdf()
    os.makedirs(folder)
    return fonts.put(os.path.join(folder, "page.pdf"), pages(pdf, page, [embedded(pdf, face, program, "AAAAAA+Shown", widths)], contents))


def differences(ours, theirs, most, dpi=96, readers=READERS):
    """What the readers show otherwise of one file than of the other: ink that has no ink within `most` pixels. With 0 each pixel is the same; but
    of Ghostscript, which hints by letters that it finds by names, ink lies within two."""
    wrong = []
    for reader in readers:
        (after, said), (before, usual) = (drawn(reader, path, dpi) for path in (ours, theirs))
        if not len(before) == len(after) == 2:
            wrong.append(f"{reader} draws nothing")
            continue
        for page, (one, other) in enumerate(zip(after, before), 1):
            # (the lines begin alike, and are as long to a pixel)
            slack = max(most, page > 1, 2 * (reader == "Ghostscript"))
            far = 0 if one.tobytes() == other.tobytes() else ink_apart(one, other, slack) or not slack
            wrong += [f"{reader}: {int(far)} pixels of ink of page {page} are elsewhere"] * bool(far)
            wrong += [f"{reader}: page {page} is blank"] * is_blank(one)
        wrong += [f"{reader} warns of the subset alone: {line}" for line in sorted(said - usual)[:1]]
    return wrong


def places_by_trace(path):
    """Where MuPDF puts each glyph of the second page, in points."""
    said = subprocess.run(["mutool", "draw", "-F", "trace", path, "2"], capture_output=True, text=True, errors="replace").stdout
    return [float(x) for x in re.findall(r'<g [^>]*\bx="([-0-9.e]+)"', said)]
