"""A PDF file, written by hand: objects, a page of glyphs, and a font that is embedded as a CID font (ISO 32000-1, 9.7)."""
import io
import zlib

import made
from fonts import content, tables_of, u16, u32


class Pdf:
    """The objects of a file, numbered from 1 in the order in which they are put in."""

    def __init__(self):
        self.objects = []

    def put(self, text):
        """An object of this text; its number."""
        self.objects.append(text.encode("latin-1") if isinstance(text, str) else text)
        return len(self.objects)

    def stream(self, entries, data, is_packed=True):
        """A stream of these bytes; its number."""
        data, entries = (zlib.compress(data), f"{entries} /Filter /FlateDecode") if is_packed else (data, entries)
        return self.put(f"<< {entries} /Length {len(data)} >>\nstream\n".encode("latin-1") + data + b"\nendstream")

    def room(self):
        """The number of an object that is put in later."""
        self.objects.append(None)
        return len(self.objects)

    def fill(self, number, text):
        self.objects[number - 1] = text.encode("latin-1")

    def file(self, root, more=b"", offsets=()):
        """The bytes of the file, whose catalog has this number. Further objects, numbered from the next on, begin in `more` at these offsets."""
        out, places = bytearray(b"%PDF-1.4\n%\xe2\xe3\xcf\xd3\n"), []
        for number, text in enumerate(self.objects, 1):
            places.append(len(out))
            out += b"%d 0 obj\n" % number + text + b"\nendobj\n"
        places += [len(out) + it for it in offsets]
        out += more
        table, size = len(out), len(places) + 1
        out += b"xref\n0 %d\n0000000000 65535 f \n" % size + b"".join(b"%010d 00000 n \n" % place for place in places)
        return bytes(out + b"trailer\n<< /Size %d /Root %d 0 R /ID [<00> <00>] >>\nstartxref\n%d\n%%%%EOF\n" % (size, root, table))


class Face:
    """A font of one face: its tables, and what a PDF says of it."""

    def __init__(self, data, index=0):
        at = u32(data, 12 + 4 * index) if data[:4] == b"ttcf" else 0
        self.kind = data[at:at + 4]
        self.tables = dict(sorted(tables_of(data, index).items()))
        self.alone = data if data[:4] != b"ttcf" else made.font(list(self.tables.items()), self.kind)
        self.is_cff = "glyf" not in self.tables
        self.units = u16(self.tables["head"], 18)

    def advance(self, glyph):
        """The advance of a glyph in the font's units: past the pairs of `hmtx` the last one's."""
        pairs = u16(self.tables["hhea"], 34)
        return u16(self.tables["hmtx"], 4 * min(glyph, pairs - 1))

    def box(self):
        """The box of all glyphs (`head`), in thousandths."""
        numbers = [int.from_bytes(self.tables["head"][k:k + 2], "big", signed=True) for k in range(36, 44, 2)]
        return [round(n * 1000 / self.units) for n in numbers]

    def cids(self, count):
        """The CID of each glyph, or its number where the font isn't CID-keyed (ISO 32000-1, 9.7.4.2)."""
        from fontTools.cffLib import CFFFontSet

        cff = CFFFontSet()
        cff.decompile(io.BytesIO(self.tables["CFF "]), None)
        top = cff.topDictIndex[0]
        return [0, *(int(name[3:]) for name in top.charset[1:count])] if hasattr(top, "ROS") and top.charset else range(count)

    def glyphs_drawn(self):
        """The numbers of the glyphs that draw something, as far as `loca` says (of CFF outlines all)."""
        count = u16(self.tables["maxp"], 4)
        if self.is_cff:
            return list(range(count))
        loca, long = self.tables["loca"], u16(self.tables["head"], 50)
        entry = (lambda g: u32(loca, 4 * g)) if long else (lambda g: u16(loca, 2 * g))
        return [g for g in range(count) if entry(g) < entry(g + 1)]


# How the font program is in the PDF: the whole file of TrueType outlines; of CFF outlines the bare table, or the
# whole file.
PROGRAMS = {"TrueType": "/FontFile2", "CIDFontType0C": "/FontFile3", "OpenType": "/FontFile3"}


def embedded(pdf, face, program, name, widths):
    """A Type 0 font over the face; its number.

    Each code is the CID of a glyph (Identity-H). `widths` is the text of `/W`.
    """
    if program == "TrueType":
        file = pdf.stream(f"/Length1 {len(face.alone)}", face.alone)
    elif program == "CIDFontType0C":
        file = pdf.stream("/Subtype /CIDFontType0C", face.tables["CFF "])
    else:
        file = pdf.stream("/Subtype /OpenType", face.alone)
    box = face.box()
    descriptor = pdf.put(
        f"<< /Type /FontDescriptor /FontName /{name} /Flags 4 /FontBBox [{' '.join(map(str, box))}] /ItalicAngle 0"
        f" /Ascent {box[3]} /Descent {box[1]} /CapHeight {box[3]} /StemV 80 {PROGRAMS[program]} {file} 0 R >>")
    kind = "/CIDFontType2 /CIDToGIDMap /Identity" if program == "TrueType" else "/CIDFontType0"
    font = pdf.put(
        f"<< /Type /Font /Subtype {kind} /BaseFont /{name} /CIDSystemInfo << /Registry (Adobe) /Ordering (Identity)"
        f" /Supplement 0 >> /FontDescriptor {descriptor} 0 R /DW 1000 /W {widths} >>")
    whole = name if program == "TrueType" else f"{name}-Identity-H"
    return pdf.put(
        f"<< /Type /Font /Subtype /Type0 /BaseFont /{whole} /Encoding /Identity-H /DescendantFonts [{font} 0 R] >>")


def pages(pdf, size, fonts, contents):
    """A file of pages of one size, whose fonts are F0, F1, ..; its bytes."""
    tree = pdf.room()
    names = " ".join(f"/F{k} {number} 0 R" for k, number in enumerate(fonts))
    kids = []
    for text in contents:
        stream = pdf.stream("", text.encode("latin-1"))
        kids.append(pdf.put(
            f"<< /Type /Page /Parent {tree} 0 R /MediaBox [0 0 {size[0]} {size[1]}] /Contents {stream} 0 R"
            f" /Resources << /Font << {names} >> >> >>"))
    pdf.fill(tree, f"<< /Type /Pages /Count {len(kids)} /Kids [{' '.join(f'{k} 0 R' for k in kids)}] >>")
    return pdf.file(pdf.put(f"<< /Type /Catalog /Pages {tree} 0 R >>"))


# ---- a page as PDF/A-1b wants it

PROFILE = "/usr/share/color/icc/ghostscript/srgb.icc"
XMP = """<?xpacket begin="\ufeff" id="W5M0MpCehiHzreSzNTczkc9d"?>
<x:xmpmeta xmlns:x="adobe:ns:meta/"><rdf:RDF xmlns:rdf="http://www.w3.org/1999/02/22-rdf-syntax-ns#">
<rdf:Description rdf:about="" xmlns:pdfaid="http://www.aiim.org/pdfa/ns/id/"><pdfaid:part>1</pdfaid:part><pdfaid:conformance>B</pdfaid:conformance></rdf:Description>
</rdf:RDF></x:xmpmeta>
<?xpacket end="w"?>"""
# The number of the first object of the font.
FIRST = 7


def archival(objects, offsets, shown, box):
    """A PDF/A-1b file of one page, whose font has these objects."""
    pdf = Pdf()
    pdf.put("<< /Type /Catalog /Pages 2 0 R /Metadata 5 0 R /OutputIntents [<< /Type /OutputIntent /S /GTS_PDFA1 /OutputConditionIdentifier (sRGB) /DestOutputProfile 6 0 R >>] >>")
    pdf.put("<< /Type /Pages /Count 1 /Kids [3 0 R] >>")
    pdf.put(f"<< /Type /Page /Parent 2 0 R /MediaBox [0 0 {box[0]} {box[1]}] /Contents 4 0 R /Resources << /Font << /F0 {FIRST} 0 R >> >> >>")
    pdf.stream("", shown.encode())
    pdf.stream("/Type /Metadata /Subtype /XML", XMP.encode(), is_packed=False)
    pdf.stream("/N 3", content(PROFILE))
    return pdf.file(1, objects, offsets)
