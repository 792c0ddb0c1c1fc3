"""What differs between the values and the file of a case and the rules, and what readers see of it: for pdf_font.py."""
import io
from fractions import Fraction

import fonts
import pdf_readers as readers
import pdf_rules as rules
from fontTools.pens.basePen import NullPen
from fontTools.ttLib import TTFont
from pdf_file import Face, Pdf, archival, embedded, pages
from pdf_readers import stream


def outcome(case, made):
    """The error that the rules want, or None; and the one that came."""
    embedded, came = case.embedded, made if isinstance(made, str) else None
    if isinstance(embedded, str) and came == embedded:
        return came, came
    if not case.has("Held") and not rules.is_permitted(case.source):
        return "NotPermitted", came
    return embedded if isinstance(embedded, str) else None, came


def wanted_widths(case, program, count):
    """The widths of the glyphs in use by the source's `hmtx`, and of the components by the new font's. At coordinates all are the new
    font's, which other comparisons judge."""
    source, order = case.source, list(dict.fromkeys([0, *(glyph for glyph, _ in case.shown)]))
    if source.is_moved:
        return [rules.thousandths(advance(program, cid), source.units) for cid in range(count)]
    own = [rules.thousandths(source.advance(glyph), source.units) for glyph in order]
    return own + [rules.thousandths(advance(program, cid), source.units) for cid in range(len(own), count)]


def advance(tables, glyph):
    pairs = rules.field(tables["hhea"], 34, "H")
    return rules.field(tables["hmtx"], 4 * min(glyph, pairs - 1), "H")


def says_advances(file):
    """Whether the charstrings of a file's `CFF ` say the advances of its `hmtx`, by fontTools."""
    font = TTFont(io.BytesIO(file))
    charstrings = {it: font["CFF "].cff[0].CharStrings[it] for it in font.getGlyphOrder()}
    for it in charstrings.values():
        it.draw(NullPen())
    return all(it.width == font["hmtx"][name][0] for name, it in charstrings.items())


def moved_heights(case):
    """What `VVAR` adds to the advance of each glyph in use, by fontTools."""
    source = case.source
    table = source.font["VVAR"].table
    store, mapping = source.deltas(table.VarStore), table.AdvHeightMap
    index = (lambda g: mapping.mapping.get(source.font.getGlyphName(g), 0)) if mapping else (lambda g: g)
    return lambda g: int(rules.half_up(store[index(g)]))


def wanted_columns(case, widths):
    order = list(dict.fromkeys([0, *(glyph for glyph, _ in case.shown)]))
    found = [rules.column(case.source, glyph, width) for glyph, width in zip(order, widths)]
    if case.source.is_moved and "VVAR" in case.source.tables:
        shift = moved_heights(case)
        for k, glyph in enumerate(order):
            height, _ = rules.vertical(case.source, glyph)
            if height is not None:
                found[k] = (-rules.thousandths(max(height + shift(glyph), 0), case.source.units), *found[k][1:])
    return found


def compared(wrong, what, has, wants):
    if has != wants:
        wrong.append(f"{what} is {str(has)[:120]}, not {str(wants)[:120]}")


class Font:
    """What the rules say of a case whose font program is there."""

    def __init__(self, case, made):
        source, self.program = case.source, made.program
        self.kind = "TrueType" if not source.is_cff else "OpenType" if case.has("OpenType") else "CFF"
        self.tables = {} if self.kind == "CFF" else fonts.tables_of(self.program)
        self.cids, self.codes = rules.cids(case.shown), case.codes
        self.count = self.glyph_count(case)
        self.widths = wanted_widths(case, self.tables, self.count)
        self.default = rules.most_frequent(self.widths)
        self.values = rules.descriptor(source, self.tables, case.has("Kept"))
        self.name = rules.font_name(source, self.program, "QWERTY" if case.has("QWERTY") else None)
        self.to_unicode = rules.to_unicode(case.shown, self.codes)
        self.cmap = rules.encoding(self.cids, self.codes, case.is_vertical)
        self.columns = wanted_columns(case, self.widths) if case.is_vertical else None
        self.dw2 = None
        if self.columns:
            y, down = rules.most_frequent([(y, down) for down, _, y in self.columns])
            self.dw2 = [y, down]

    def glyph_count(self, case):
        if self.kind == "TrueType":
            return len(self.tables["loca"]) // (4 if rules.field(self.tables["head"], 50, "H") else 2) - 1
        return max(self.cids, default=0) + 1


def faults_of_values(case, made, font):
    """What the library's values have otherwise than the rules."""
    wrong = []
    name, text = font.cmap or (None, "")
    wanted = {"kind": font.kind, "glyph_count": font.count, "cids": font.cids, "codes": font.codes, "is_said": [it == 1 for it in rules.is_said(case.shown, font.codes)], "widths": font.widths,
              "default_width": font.default, "columns": font.columns, "default_column": font.dw2 and tuple(font.dw2), "to_unicode": font.to_unicode.encode(), "encoding": text.encode() or None,
              "encoding_name": name, "cid_set": rules.cid_set(font.count) if case.has("CIDSet") else None}
    for field, wants in wanted.items():
        compared(wrong, field, getattr(made, field), wants)
    compared(wrong, "permission", made.permission, rules.permission(case.source))
    values = {**font.values, "font_name": font.name, "bounds": tuple(font.values["bounds"]), "italic_angle": font.values["italic_angle"] / 1000}
    for field, has in made.descriptor._asdict().items():
        compared(wrong, field, has, values[field])
    if font.kind == "TrueType" or says_advances(case.embedded[0]):
        box = rules.kept_box(font.tables) if case.has("Kept") and font.kind == "TrueType" else None
        file = rules.boxed(case.embedded[0], box) if box else case.embedded[0]
        compared(wrong, "the program as `embed` makes it", made.program == (fonts.tables_of(file)["CFF "] if font.kind == "CFF" else file), True)
    elif font.kind == "OpenType" and max(made.exact_widths) < 32768:
        compared(wrong, "the charstrings' widths are the advances", says_advances(made.program), True)
    if case.characters:
        compared(wrong, "glyphs_of", case.found, [(case.characters.get(ord(it), 0), it) for _, text in case.shown for it in text])
    return wrong


# ---- the objects of a file

def faults_of_file(case, font, path):
    """What qpdf finds in a file otherwise than the rules."""
    wrong, objects = [], readers.objects_of(path)
    top = [it["value"] for it in objects.values() if isinstance(it.get("value"), dict) and it["value"].get("/Subtype") == "/Type0"]
    if len(top) != 1:
        return [f"{len(top)} Type 0 fonts"]
    top, way = top[0], "V" if case.is_vertical else "H"
    below = objects[top["/DescendantFonts"][0]]["value"]
    values, is_cff = objects[below["/FontDescriptor"]]["value"], font.kind != "TrueType"
    identity = {"/Registry": "u:Adobe", "/Ordering": "u:Identity", "/Supplement": 0}
    name, cmap_name = "/" + font.name, font.cmap[0] if font.cmap else f"Identity-{way}"
    compared(wrong, "Type 0", {it: top[it] for it in top if it not in ("/ToUnicode", "/DescendantFonts", "/Encoding")},
             {"/Type": "/Font", "/Subtype": "/Type0", "/BaseFont": f"{name}-{cmap_name}" if is_cff else name})
    compared(wrong, "CIDFont", {it: below[it] for it in below if it not in ("/W", "/W2", "/DW", "/DW2", "/FontDescriptor")},
             {"/Type": "/Font", "/Subtype": "/CIDFontType0" if is_cff else "/CIDFontType2", "/BaseFont": name, "/CIDSystemInfo": identity,
              **({} if is_cff else {"/CIDToGIDMap": "/Identity"})})
    compared(wrong, "W", (below["/DW"], rules.widths_in(below.get("/W", []), below["/DW"], font.count)), (font.default, font.widths))
    wrong += faults_of_columns(font, below)
    program_key = "/FontFile3" if is_cff else "/FontFile2"
    compared(wrong, "descriptor", {it: values[it] for it in values if it not in ("/CIDSet", program_key)}, entries_of_descriptor(font))
    wrong += faults_of_streams(case, font, objects, (top, below, values[program_key], values.get("/CIDSet")))
    if not font.cmap:
        compared(wrong, "Encoding", top["/Encoding"], f"/Identity-{way}")
    return wrong


def entries_of_descriptor(font):
    it = font.values
    found = {"/Type": "/FontDescriptor", "/FontName": "/" + font.name, "/Flags": it["flags"], "/FontBBox": it["bounds"], "/ItalicAngle": Fraction(it["italic_angle"], 1000),
             "/Ascent": it["ascent"], "/Descent": it["descent"], "/CapHeight": it["cap_height"], "/XHeight": it["x_height"], "/StemV": it["stem_v"],
             "/FontWeight": it["font_weight"]}
    return {name: value for name, value in found.items() if value is not None}


def faults_of_columns(font, below):
    wrong = []
    if font.columns is None:
        return ["W2 in horizontal writing"] if "/W2" in below or "/DW2" in below else []
    found = rules.columns_in(below.get("/W2", []), below.get("/DW2", [880, -1000]), font.widths, len(font.columns))
    compared(wrong, "DW2", below.get("/DW2", [880, -1000]), font.dw2)
    for cid, (has, wants) in enumerate(zip(found, font.columns)):
        if (has[0], has[2]) != (wants[0], wants[2]) or abs(has[1] - wants[1]) > Fraction(1, 2):
            compared(wrong, f"W2 of {cid}", has, wants)
    return wrong


def faults_of_streams(case, font, objects, values):
    wrong, (top, _, program, cid_set) = [], values
    data, entries = stream(objects, program)
    compared(wrong, "font program", data == font.program, True)
    kept = {it: value for it, value in entries.items() if it != "/Length"}
    more = {"TrueType": {"/Length1": len(font.program)}, "CFF": {"/Subtype": "/CIDFontType0C"}, "OpenType": {"/Subtype": "/OpenType"}}
    compared(wrong, "its dictionary", kept, more[font.kind])
    compared(wrong, "ToUnicode", stream(objects, top["/ToUnicode"])[0].decode(), font.to_unicode)
    compared(wrong, "CIDSet", cid_set and stream(objects, cid_set)[0], rules.cid_set(font.count) if case.has("CIDSet") else None)
    if font.cmap:
        data, entries = stream(objects, top["/Encoding"])
        compared(wrong, "CMap", data.decode(), font.cmap[1])
        compared(wrong, "its name", (entries["/Type"], entries["/CMapName"], entries.get("/WMode", 0)), ("/CMap", "/" + font.cmap[0], int(case.is_vertical)))
    return wrong


# ---- the readers

def faults_of_text(case, font):
    """The grid's text by Poppler and MuPDF; and whether MuPDF was asked."""
    wrong, wants = [], readers.letters("".join(text for _, text in case.shown))
    is_simple = all(rules.is_said(case.shown, font.codes)) and len(set(case.shown)) == len({glyph for glyph, _ in case.shown})
    is_simple = is_simple and all(len(text) == 1 or max(text) < "\U00010000" for _, text in case.shown)
    for reader, *more in (("Poppler", "-raw"), ("MuPDF",))[:1 + is_simple]:
        has = readers.letters(readers.text_by(reader, case.file("grid.pdf"), *more))
        if has != wants and not (rules.is_right_to_left(wants) and sorted(has) == sorted(wants)):
            compared(wrong, f"the text by {reader}", has, wants)
    return wrong, is_simple


def points(case, font, is_line, extent):
    """Where each entry's origin lies, exactly; of columns that of horizontal writing."""
    pen, found = 0, []
    for k, ((glyph, _), cid) in enumerate(zip(case.shown, font.cids)):
        units = case.source.advance(glyph)
        x, y = (36 + pen, 54) if is_line else (34 + 44 * (k % 12), 50 + 48 * (15 - k // 12 % 16))
        if case.is_vertical:
            down, _, top = font.columns[cid]
            x, y = (72, extent - 36 - pen) if is_line else (x + 18, y + 32)
            x, y = x - 18 * units / case.source.units, y - 36 * top / 1000
            pen -= 36 * down / 1000
        else:
            pen += 36 * units / case.source.units
        found.append((x, y))
    return found


def whole_page(case, font, face, is_line, box):
    """A page with the whole font, whose glyphs are where the source's own numbers put them."""
    numbers = face.cids(max(glyph for glyph, _ in case.shown) + 1) if face.is_cff else range(65536)
    text = ["BT /F0 36 Tf"]
    for (glyph, _), (x, y) in zip(case.shown, points(case, font, is_line, box[1])):
        text.append(f"1 0 0 1 {float(x):.4f} {float(y):.4f} Tm <{numbers[glyph]:04X}> Tj")
    pdf = Pdf()
    used = embedded(pdf, face, "OpenType" if face.is_cff else "TrueType", "AAAAAA+Whole", "[]")
    return pages(pdf, box, [used], ["\n".join([*text, "ET"])])


def faults_of_ink(case, font):
    """What MuPDF and Poppler draw otherwise than with the whole font; and how many pictures were compared."""
    wrong, count, face = [], 0, Face(case.data, case.index)
    for name, reader in (("line", "MuPDF"), ("grid", "Poppler")):
        box = next(it["value"]["/MediaBox"] for it in readers.objects_of(case.file(f"{name}.pdf")).values() if "/MediaBox" in (it.get("value") or ()))
        path = fonts.put(case.file(f"whole-{name}.pdf"), whole_page(case, font, face, name == "line", box[2:]))
        has, wants = (readers.drawn(reader, it)[0][0] for it in (case.file(f"{name}.pdf"), path))
        far = readers.ink_apart(has, wants)
        count += 1
        if far or readers.is_blank(has) != readers.is_blank(wants):
            wrong.append(f"{reader} draws the {name} with {far} pixels of ink elsewhere" + " (blank)" * readers.is_blank(has))
    return wrong, count


def archival_page(case, path):
    """A PDF/A-1b page of the font's objects, which shows its codes."""
    objects = fonts.content(case.file("objects"))
    codes = "".join(f"<{code:04X}> Tj\n" for code in case.codes)
    fonts.put(path, archival(objects, case.offsets, f"BT /F0 12 Tf 20 50 Td\n{codes}ET", (800, 100)))
