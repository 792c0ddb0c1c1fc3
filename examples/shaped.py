"""A PDF of lines in five scripts that HarfBuzz shapes, one of them a column; readers copy and find their text. Its streams are compressed."""
import json
import subprocess
import types
import zlib

import subsetter

FOLDER = "/usr/share/fonts"
DEJAVU, LOHIT = f"{FOLDER}/truetype/dejavu/DejaVuSans.ttf", f"{FOLDER}/truetype/lohit-devanagari/Lohit-Devanagari.ttf"
GARUDA, MINCHO = f"{FOLDER}/truetype/tlwg/Garuda.ttf", f"{FOLDER}/opentype/ipaexfont-mincho/ipaexm.ttf"
LINES = [
    (DEJAVU, "ltr", "Hello, Ελλάδα, office"),
    (DEJAVU, "rtl", "سلام لا"),
    (LOHIT, "ltr", "हिन्दी क्षत्रिय"),
    (GARUDA, "ltr", "ภาษาไทยที่นี่"),
    (MINCHO, "ttb", "吾輩は猫である"),
]


def shape(path, direction, line):
    """What uharfbuzz has as `buffer.glyph_infos` and `buffer.glyph_positions`, by hb-shape."""
    words = ["hb-shape", "--output-format=json", "--no-glyph-names", f"--direction={direction}", path, line]
    glyphs = json.loads(subprocess.run(words, check=True, stdout=subprocess.PIPE).stdout)
    infos = [types.SimpleNamespace(codepoint=it["g"], cluster=it["cl"]) for it in glyphs]
    return infos, [types.SimpleNamespace(x_advance=it["ax"], y_advance=it["ay"], x_offset=it["dx"], y_offset=it["dy"]) for it in glyphs]


# The pages come first, and then a font for all runs of a text.
texts, shows = {}, b"BT"
for k, (path, direction, line) in enumerate(LINES):
    if path not in texts:
        with open(path, "rb") as file:
            texts[path] = subsetter.PdfText(file.read(), vertical=direction == "ttb")
    shows += b" 1 0 0 1 %d %d Tm" % ((48, 220) if direction == "ttb" else (80, 200 - 40 * k))
    shows += b" /F%d 24 Tf " % list(texts).index(path) + texts[path].shaped(line, *shape(path, direction, line), direction, size=24)
content = zlib.compress(shows + b"ET")

objects, fonts = {}, b""
for name, text in enumerate(texts.values()):
    font, first = text.font(), 5 + len(objects)
    fonts += b"/F%d %d 0 R " % (name, first)
    for part in font.parts(range(first, first + font.part_count), compress=True):
        objects[part.number] = part.value
objects.update({
    1: b"<< /Type /Catalog /Pages 2 0 R >>",
    2: b"<< /Type /Pages /Count 1 /Kids [3 0 R] >>",
    3: b"<< /Type /Page /Parent 2 0 R /MediaBox [0 0 400 240] /Contents 4 0 R /Resources << /Font << %s>> >> >>" % fonts,
    4: b"<< /Filter /FlateDecode /Length %d >>\nstream\n%s\nendstream" % (len(content), content),
})

pdf, table = b"%PDF-1.7\n%\xe2\xe3\xcf\xd3\n", b""
for number, value in sorted(objects.items()):
    table += b"%010d 00000 n \n" % len(pdf)
    pdf += b"%d 0 obj\n%s\nendobj\n" % (number, value)
size, start = len(objects) + 1, len(pdf)
pdf += b"xref\n0 %d\n0000000000 65535 f \n%s" % (size, table)
pdf += b"trailer\n<< /Size %d /Root 1 0 R >>\nstartxref\n%d\n%%%%EOF\n" % (size, start)
with open("hello.pdf", "wb") as file:
    file.write(pdf)
