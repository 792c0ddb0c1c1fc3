#!/usr/bin/python3
"""Draws two specimens from subsets that hold the glyphs of one line each.

    demo/specimen.py docs/specimen.png              four scripts, by MuPDF
    demo/specimen.py --weights docs/weights.png     a line at five weights of a variable font, by each of three PDF readers
"""
import json
import os
import subprocess
import sys
import tempfile

sys.path.insert(0, os.path.join(os.path.dirname(os.path.dirname(os.path.realpath(__file__))), "compare", "lib"))
sys.dont_write_bytecode = True

from drawn_by import READERS, drawn, subset
from pdf_file import Face, Pdf, embedded, pages

NOTO = "/usr/share/fonts/truetype/noto"
CJK = "/usr/share/fonts/opentype/noto"
# The first article of the Universal Declaration of Human Rights, its first sentence or a part of it.
LINES = [
    (f"{NOTO}/NotoSerif-Regular.ttf", 0, "All human beings are born free and equal"),
    (f"{NOTO}/NotoSansDevanagari-Regular.ttf", 0, "सभी मनुष्यों को गौरव और अधिकारों के मामले में जन्मजात स्वतन्त्रता"),
    (f"{NOTO}/NotoNaskhArabic-Regular.ttf", 0, "يولد جميع الناس أحرارًا متساوين في الكرامة والحقوق"),
    (f"{CJK}/NotoSerifCJK-Regular.ttc", 2, "人人生而自由，在尊严和权利上一律平等。"),
]
LABELS = f"{NOTO}/NotoSans-Regular.ttf"
PAGE, LINE, LABEL = (560, 270), 21, 8
VARIABLE, TEXT = "/usr/share/fonts/truetype/inter-vf/Inter.var.ttf", "Dragon & Größe"
WEIGHTS = 100, 300, 500, 700, 900
COLUMN = 208, 184


def shaped(font, index, text, *more):
    """What HarfBuzz makes of a text: each glyph's number, where it is and how far it moves on, in font units."""
    words = ["hb-shape", f"--face-index={index}", "--output-format=json", "--no-glyph-names", *more, font, text]
    return json.loads(subprocess.run(words, capture_output=True, text=True, check=True).stdout)


def set_line(glyphs, numbers, units, name, size, x, y):
    """The glyphs of a line under their new numbers, each where HarfBuzz puts it."""
    text, at = [f"BT /{name} {size} Tf"], 0
    for glyph in glyphs:
        place = x + (at + glyph["dx"]) * size / units, y + glyph["dy"] * size / units
        text.append(f"1 0 0 1 {place[0]:.3f} {place[1]:.3f} Tm <{numbers[glyph['g']]:04X}> Tj")
        at += glyph["ax"]
    return "\n".join(text + ["ET"])


def label(pdf, labels, name, room):
    """A font for labels, and the labels: (text, x, y)."""
    lines = [(shaped(LABELS, 0, text), x, y) for text, x, y in labels]
    out = os.path.join(room, "labels")
    numbers, widths = subset(LABELS, 0, [it["g"] for glyphs, *_ in lines for it in glyphs], out)
    with open(out, "rb") as file:
        face = Face(file.read())
    font = embedded(pdf, face, "TrueType", "AAAAAZ+Specimen", widths)
    return font, [set_line(glyphs, numbers, face.units, name, LABEL, x, y) for glyphs, x, y in lines]


def draw(png):
    pdf, fonts, content, labels = Pdf(), [], [], []
    with tempfile.TemporaryDirectory() as room:
        for place, (font, index, text) in enumerate(LINES):
            glyphs, out = shaped(font, index, text), os.path.join(room, "subset")
            numbers, widths = subset(font, index, [it["g"] for it in glyphs], out)
            with open(out, "rb") as file:
                face = Face(file.read())
            way = "CIDFontType0C" if face.is_cff else "TrueType"
            fonts.append(embedded(pdf, face, way, f"AAAAA{chr(65 + place)}+Specimen", widths))
            y = PAGE[1] - 46 - 60 * place
            content.append(set_line(glyphs, numbers, face.units, f"F{place}", LINE, 24, y))
            sizes = os.path.getsize(font), os.path.getsize(out)
            words = f"{os.path.basename(font)}, {sizes[0]:,} bytes: {len(set(numbers))} glyphs, {sizes[1]:,} bytes"
            labels.append((words, 24, y - 18))
        font, lines = label(pdf, labels, f"F{len(LINES)}", room)
        name = os.path.join(room, "specimen.pdf")
        with open(name, "wb") as file:
            file.write(pages(pdf, PAGE, fonts + [font], ["\n".join(content + lines)]))
        subprocess.run(["mutool", "draw", "-q", "-r", "110", "-c", "gray", "-o", png, name], check=True, stderr=subprocess.DEVNULL)
    return 0


def weights_file(reader, room):
    pdf, fonts, content = Pdf(), [], []
    labels = [(reader, 12, COLUMN[1] - 16)]
    for place, weight in enumerate(WEIGHTS):
        glyphs, out = shaped(VARIABLE, 0, TEXT, f"--variations=wght={weight}"), os.path.join(room, "subset")
        numbers, widths = subset(VARIABLE, 0, [it["g"] for it in glyphs], out, True, ["--at", f"wght={weight}"])
        with open(out, "rb") as file:
            face = Face(file.read())
        fonts.append(embedded(pdf, face, "TrueType", f"AAAAA{chr(65 + place)}+Specimen", widths))
        y = COLUMN[1] - 46 - 32 * place
        content.append(set_line(glyphs, numbers, face.units, f"F{place}", LINE, 34, y))
        labels.append((str(weight), 12, y))
    font, lines = label(pdf, labels, f"F{len(WEIGHTS)}", room)
    return pages(pdf, COLUMN, fonts + [font], ["\n".join(content + lines)] * 2)


def draw_weights(png):
    from PIL import Image
    columns = []
    with tempfile.TemporaryDirectory() as room:
        for reader in READERS:
            data = weights_file(reader, room)
            with open(os.path.join(room, "page.pdf"), "wb") as file:
                file.write(data)
            columns.append(drawn(reader, room, 110)[0][0])
    picture = Image.new("L", (sum(it.width for it in columns), columns[0].height), 255)
    for place, column in enumerate(columns):
        picture.paste(column, (place * columns[0].width, 0))
    picture.quantize(16).save(png, optimize=True)
    return 0


if __name__ == "__main__":
    *front, name = sys.argv[1:] or sys.exit(__doc__)
    sys.exit(draw_weights(name) if front == ["--weights"] else draw(name))
