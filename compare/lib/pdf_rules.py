"""What a PDF says of a font, by rules that are written here a second time: from ISO 32000-1 (9.6 to 9.10), OpenType, Technical Notes
5176 and 5902 and docs/DECISIONS.md, not from the code that is compared. fontTools reads `cmap`, `CFF ` and the tables of variations;
all other tables are read here.

Lengths are in thousandths of the em, angles in thousandths of a degree. A field that is missing or cut is None.
"""
import collections
import fractions
import io
import struct
import unicodedata

import fonts

PRIME, LETTERS = 4294967291, 26 ** 6
IRREGULAR = b"[](){}<>/%"
BEGIN = ["/CIDInit /ProcSet findresource begin", "12 dict begin", "begincmap"]
SPACE = ["1 begincodespacerange", "<0000> <FFFF>", "endcodespacerange"]
END = ["endcmap", "CMapName currentdict /CMap defineresource pop", "end", "end"]


# ---- numbers

def half_up(part):
    """The nearest whole number of a fraction, of two the greater."""
    return (2 * fractions.Fraction(part) + 1) // 2


def thousandths(value, units):
    return int(half_up(fractions.Fraction(1000 * value, units)))


def field(table, at, form):
    """A number of a table, by struct's letter; None where it isn't there whole."""
    if table is None or at + struct.calcsize(">" + form) > len(table):
        return None
    return struct.unpack_from(">" + form, table, at)[0]


def tag_of(data):
    """Six letters of some bytes."""
    digest = 0
    for byte in data:
        digest = (65599 * digest + byte + 1) % PRIME
    digest, letters = digest % LETTERS, ""
    for _ in range(6):
        digest, letter = divmod(digest, 26)
        letters += chr(65 + letter)
    return letters


# ---- a font

class Source:
    """A face of a font, at coordinates (none: its default)."""

    def __init__(self, data, index=0, coordinates=()):
        self.data, self.index = data, index
        self.tables = fonts.tables_of(data, index)
        self.is_cff = "glyf" not in self.tables
        self.units = field(self.tables.get("head"), 18, "H")
        self.axes = fonts.axes(data, index)
        given = dict(coordinates)
        # (each value clamped to its axis, in 65536ths)
        self.at = {tag: min(max(round(given.get(tag, default / 65536) * 65536), low), high) for tag, low, default, high in self.axes}
        self.is_moved = not self.is_cff and any(self.at[tag] != default for tag, _, default, _ in self.axes)
        self._font = self._shifts = None

    def __getitem__(self, tag):
        return self.tables.get(tag)

    @property
    def font(self):
        """The face as fontTools has it, whose glyphs are called by their numbers."""
        if self._font is None:
            from fontTools.ttLib import TTFont

            self._font = TTFont(io.BytesIO(self.data), fontNumber=self.index, lazy=True)
            self._font.setGlyphOrder([f"glyph{number:05d}" for number in range(self._font["maxp"].numGlyphs)])
        return self._font

    def deltas(self, store):
        """What an item variation store says at the coordinates, by the numbers of its deltas."""
        from fontTools.varLib.models import normalizeLocation, piecewiseLinearMap
        from fontTools.varLib.varStore import VarStoreInstancer

        axes = {name: (low / 65536, default / 65536, high / 65536) for name, low, default, high in self.axes}
        at = normalizeLocation({name: value / 65536 for name, value in self.at.items()}, axes)
        at = {name: half_up(value * 16384) / 16384 for name, value in at.items()}
        if "avar" in self.font:
            segments = self.font["avar"].segments
            at = {name: piecewiseLinearMap(value, segments.get(name) or {-1: -1, 0: 0, 1: 1}) for name, value in at.items()}
            at = {name: half_up(value * 16384) / 16384 for name, value in at.items()}
        return VarStoreInstancer(store, self.font["fvar"].axes, at)

    def shift(self, tag):
        """What `MVAR` adds to a field, in units."""
        if not self.is_moved or self["MVAR"] is None:
            return 0
        if self._shifts is None:
            mvar = self.font["MVAR"].table
            store = self.deltas(mvar.VarStore)
            self._shifts = {it.ValueTag: store[it.VarIdx] for it in mvar.ValueRecord}
        return int(half_up(self._shifts.get(tag, 0)))

    def cmap(self):
        """The glyph of each character: by the first Unicode table of format 12, else the first of format 4."""
        for form in (12, 4):
            for table in self.font["cmap"].tables:
                if table.format == form and (table.platformID == 0 or table.platformID == 3 and table.platEncID in (1, 10)):
                    return {character: int(name[5:]) for character, name in table.cmap.items()}
        return {}

    def top_of(self, character):
        """The top of a character's glyph, by the header of its outline in `glyf`, or by its charstring in `CFF `."""
        glyph = self.cmap().get(ord(character), 0) if "cmap" in self.tables else 0
        return self.top(glyph) if glyph else None

    def top(self, glyph):
        """The top of a glyph's box, which has the control points of a charstring; None where it has no outline or is one of `CFF2`."""
        if not self.is_cff:
            box = box_of(self.tables, glyph)
            return box and box[3]
        if "CFF " not in self.tables:
            return None
        from fontTools.pens.boundsPen import ControlBoundsPen

        pen = ControlBoundsPen(None)
        self.font["CFF "].cff.topDictIndex[0].CharStrings.charStringsIndex[glyph].draw(pen)
        return pen.bounds and int(half_up(pen.bounds[3]))

    def advance(self, glyph):
        """The advance width of the default, in units: past the pairs of `hmtx` the last one's."""
        pairs = field(self["hhea"], 34, "H")
        return field(self["hmtx"], 4 * min(glyph, pairs - 1), "H")


def box_of(tables, glyph):
    """The box of a glyph by its header; None where it has no outline."""
    is_long = field(tables.get("head"), 50, "H")
    size, form = (4, "I") if is_long else (2, "H")
    first, last = field(tables.get("loca"), size * glyph, form), field(tables.get("loca"), size * (glyph + 1), form)
    if first is None or last is None:
        return None
    first, last = (first, last) if is_long else (2 * first, 2 * last)
    outline = tables["glyf"][first:last]
    return struct.unpack_from(">hhhh", outline, 2) if len(outline) >= 10 else None


def kept_box(program):
    """The box around the outlines of a new TrueType font; None where it has none."""
    count = len(program["loca"]) // (4 if field(program["head"], 50, "H") else 2) - 1
    boxes = [it for it in (box_of(program, glyph) for glyph in range(count)) if it]
    return [pick(it[side] for it in boxes) for side, pick in enumerate((min, min, max, max))] if boxes else None


def boxed(data, box):
    """A file with this box in its `head`, and the checksums of that."""
    file, total = bytearray(data), lambda part: sum(struct.unpack(f">{(len(part) + 3) // 4}I", part + bytes(-len(part) % 4))) % 2 ** 32
    at, size = fonts.directory(data, 0)["head"]
    struct.pack_into(">4h", file, at + 36, *box)
    struct.pack_into(">I", file, at + 8, 0)
    struct.pack_into(">I", file, data.index(b"head", 12) + 4, total(file[at:at + size]))
    struct.pack_into(">I", file, at + 8, (0xB1B0AFBA - total(file)) % 2 ** 32)
    return bytes(file)


# ---- Table 122: the values of the descriptor

def bounds(source, program, is_kept):
    """FontBBox. `program` is the new font's tables where it is a TrueType one."""
    box = [field(source["head"], at, "h") for at in (36, 38, 40, 42)]
    is_empty = None in box or box[0] >= box[2] or box[1] >= box[3]
    if source.is_cff:
        box = [0, 0, 0, 0] if is_empty else box
    elif is_kept or source.is_moved or is_empty:
        box = kept_box(program) or [0, 0, 0, 0]
    low = [1000 * it // source.units for it in box[:2]]
    return low + [-(-1000 * it // source.units) for it in box[2:]]


def italic_angle(source):
    """In thousandths of a degree; 0 where it isn't between -90 and 90 degrees (OpenType, "slnt")."""
    angle = field(source["post"], 4, "i") or 0
    if source.is_moved:
        angle = source.at.get("slnt", angle if source.at.get("ital", 32768) >= 32768 else 0)
    return int(half_up(fractions.Fraction(1000 * angle, 65536))) if abs(angle) < 90 * 65536 else 0


def moved_by(source, value, tag):
    moved = value + source.shift(tag)
    return moved if abs(moved) <= 65536 else value


def lines(source):
    """Ascent and Descent, in units."""
    head, hhea, os2 = source["head"], source["hhea"], source["OS/2"]
    selection = field(os2, 62, "H")
    typographic = field(os2, 68, "h"), field(os2, 70, "h"), "hasc", "hdsc"
    windows = field(os2, 74, "H"), field(os2, 76, "H"), "hcla", "hcld"
    pairs = [typographic, windows] if selection and selection & 128 else [(field(hhea, 4, "h"), field(hhea, 6, "h"), "hasc", "hdsc"), typographic, windows]
    for ascent, descent, high, low in pairs:
        if ascent is not None and descent is not None and (ascent, descent) != (0, 0):
            return moved_by(source, ascent, high), -abs(moved_by(source, descent, low))
    return field(head, 42, "h"), -abs(field(head, 38, "h"))


def height(source, at, tag, character):
    """CapHeight or XHeight by their own sources, in units; None where there is none."""
    os2 = source["OS/2"]
    value = field(os2, at, "h") if (field(os2, 0, "H") or 0) >= 2 else None
    if value is not None and value > 0:
        return moved_by(source, value, tag)
    top = source.top_of(character)
    return top if top and top > 0 else None


def is_bold(source):
    return bool((field(source["head"], 44, "H") or 0) & 1)


def weight(source):
    """From 1 to 1000."""
    if source.is_moved and "wght" in source.at:
        value = int(half_up(fractions.Fraction(source.at["wght"], 65536)))
    else:
        value = field(source["OS/2"], 4, "H") or (700 if is_bold(source) else 400)
        value = 100 * value if value <= 9 else value
    return min(max(value, 1), 1000)


def stems(source):
    """The private dicts' StdVW, in order."""
    top = source.font["CFF "].cff.topDictIndex[0]
    dicts = [it.Private for it in top.FDArray] if hasattr(top, "ROS") else [top.Private]
    return [it.StdVW for it in dicts if hasattr(it, "StdVW")]


def stem_v(source):
    if source.is_cff:
        for stem in stems(source):
            value = int(half_up(fractions.Fraction(stem).limit_denominator(1000) * 1000 / source.units))
            if stem > 0 and value > 0:
                return value
    return 10 + int(half_up(fractions.Fraction(31 * weight(source), 200)))


def flags(source, angle):
    os2, found = source["OS/2"], 4
    family, panose = field(os2, 30, "B"), (field(os2, 32, "B"), field(os2, 33, "B"))
    found |= bool(field(source["post"], 12, "I"))
    if family is not None and (1 <= family <= 5 or family == 7) or family == 0 and panose[0] == 2 and panose[1] is not None and 2 <= panose[1] <= 10:
        found |= 2
    if family == 10 or family == 0 and panose[0] == 3:
        found |= 8
    selection = field(os2, 62, "H")
    slanted = selection & 0x201 if selection is not None else (field(source["head"], 44, "H") or 0) & 2
    if source.is_moved and {"ital", "slnt"} & set(source.at):
        slanted, angle = source.at.get("ital", 0) >= 32768 or source.at.get("slnt", 0) < 0, 0
    return found | (64 if slanted or angle else 0)


def descriptor(source, program, is_kept=False):
    """All values but the name."""
    def scaled(value):
        return thousandths(value, source.units)

    ascent, descent = lines(source)
    cap, small, angle = height(source, 88, "cpht", "H"), height(source, 86, "xhgt", "x"), italic_angle(source)
    return {"flags": flags(source, angle), "bounds": bounds(source, program, is_kept), "italic_angle": angle, "ascent": scaled(ascent), "descent": scaled(descent),
            "cap_height": scaled(ascent if cap is None else cap), "x_height": None if small is None else scaled(small), "stem_v": stem_v(source),
            "font_weight": min(max(100 * int(half_up(fractions.Fraction(weight(source), 100))), 100), 900)}


# ---- names (9.6.4, Technical Note 5902)

def strings(source, number):
    """The strings of a name ID: the first that lies in the table of Windows' English, Windows, Unicode and Macintosh Roman, as bytes."""
    table = source["name"]
    count, start = field(table, 2, "H"), field(table, 4, "H")
    if count is None or start is None:
        return
    records = [struct.unpack_from(">6H", table, 6 + 12 * k) for k in range(count) if 18 + 12 * k <= len(table)]
    kinds = [lambda it: it[0] == 3 and it[2] == 1033, lambda it: it[0] == 3, lambda it: it[0] == 0, lambda it: it[:2] == (1, 0)]
    for kind, is_of in enumerate(kinds):
        for platform, encoding, language, name, length, offset in records:
            if name == number and is_of((platform, encoding, language)) and start + offset + length <= len(table):
                text = table[start + offset:start + offset + length]
                wide = text[:length - length % 2].decode("utf-16-be", "replace")
                yield bytes(text) if kind == 3 else bytes(ord(it) for it in wide if ord(it) < 128)
                break


def regular(text):
    return bytes(it for it in text if 33 <= it <= 126 and it not in IRREGULAR)


def plain(text):
    return bytes(it for it in text if chr(it).isalnum() and it < 128)


def named(source, number, keep):
    return next((kept for kept in map(keep, strings(source, number)) if kept), None)


def postscript_name(source):
    found = named(source, 6, regular)
    if not found and source.is_cff:
        names = source.font["CFF "].cff.fontNames
        found = regular(names[0].encode("latin-1")) if names else None
    return found or b"Font"


def decimal(value):
    """The shortest decimal number that rounds back to `value` 65536ths."""
    for places in range(6):
        digits = round(fractions.Fraction(value * 10 ** places, 65536))
        if round(fractions.Fraction(digits * 65536, 10 ** places)) == value:
            break
    text = f"{abs(digits):0{places + 1}d}"
    text = text[:-places] + "." + text[-places:] if places else text
    return ("-" if digits < 0 else "") + text


def instance_name(source, prefix):
    """The name of the named instance that is exactly there."""
    table, axes = source["fvar"], len(source.axes)
    start = field(table, 4, "H") + axes * field(table, 10, "H")
    count, size = field(table, 12, "H"), field(table, 14, "H")
    for at in (start + size * k for k in range(count)):
        values = struct.unpack_from(f">{axes}i", table, at + 4)
        clamped = [min(max(value, low), high) for value, (_, low, _, high) in zip(values, source.axes)]
        if clamped == [source.at[tag] for tag, *_ in source.axes]:
            own = field(table, at + 4 + 4 * axes, "H") if size >= 6 + 4 * axes else None
            found = named(source, own, regular) if own is not None and (own == 6 or 256 <= own <= 32767) else None
            family = named(source, field(table, at, "H"), plain)
            if found or family:
                return found or prefix + b"-" + family
    return None


def moved_name(source):
    prefix = next((it for it in (named(source, number, plain) for number in (25, 16, 1)) if it), None) or plain(postscript_name(source)) or b"Font"
    found = instance_name(source, prefix)
    if found is None:
        found = prefix
        for tag, _, default, _ in source.axes:
            if source.at[tag] != default:
                found += b"_" + decimal(source.at[tag]).encode() + plain(tag.encode("latin-1"))
    return found if len(found) <= 120 else prefix[:110] + b"-" + tag_of(found).encode() + b"..."


def font_name(source, program, tag=None):
    name = moved_name(source) if source.is_moved else postscript_name(source)
    name = bytes(it for it in name if it != ord("#")) or b"Font"
    return f"{tag or tag_of(program)}+{name[:120].decode('ascii')}"


# ---- what the maker permits (`OS/2`)

def permission(source):
    """Usage, whether subsets may be embedded, whether outlines may."""
    os2 = source["OS/2"]
    version, bits = field(os2, 0, "H"), field(os2, 8, "H")
    if bits is None:
        return "unsaid", 1, 1
    usage = next((name for bit, name in ((8, "editable"), (4, "preview_and_print"), (2, "restricted")) if bits & bit), "installable")
    return (usage, int(not bits & 0x100), int(not bits & 0x200)) if version >= 2 else (usage, 1, 1)


def is_permitted(source):
    usage, subsets, outlines = permission(source)
    return usage != "restricted" and subsets and outlines


# ---- codes, texts and CMaps (9.7.5, 9.10.3)

def units_of(text):
    """The UTF-16 units of a text, without what ToUnicode may not have."""
    data = "".join(it for it in text if it not in "\0\ufeff\ufffe").encode("utf-16-be")
    return data.hex().upper()


def cids(shown):
    """The CID of each entry: consecutive, by first use."""
    number = {0: 0}
    return [number.setdefault(glyph, len(number)) for glyph, _ in shown]


def codes(shown, choice):
    if choice == "Source":
        return [glyph for glyph, _ in shown]
    if choice == "EachText":
        number = {}
        return [number.setdefault((glyph, units_of(text)), len(number) + 1) if glyph else 0 for glyph, text in shown]
    return cids(shown)


def texts(shown, codes):
    """The text of each code, in hexadecimal."""
    found = {}
    for (_, text), code in zip(shown, codes):
        if code and units_of(text):
            found.setdefault(code, units_of(text))
    return found


def is_said(shown, codes):
    known = texts(shown, codes)
    return [int(0 < len(units_of(text)) <= 32 and known.get(code) == units_of(text)) for (_, text), code in zip(shown, codes)]


def blocks(word, rows):
    """Lines in blocks of at most 100 (9.10.3)."""
    for at in range(0, len(rows), 100):
        part = rows[at:at + 100]
        yield from [f"{len(part)} begin{word}", *part, f"end{word}"]


def to_unicode(shown, codes):
    """A line for each code above 0: its text, or U+2060 where it has none."""
    known = texts(shown, codes)
    rows = [f"<{code:04X}> <{known.get(code, '2060')}>" for code in sorted({*codes} - {0})]
    head = ["/CIDSystemInfo << /Registry (Adobe) /Ordering (UCS) /Supplement 0 >> def", "/CMapName /Adobe-Identity-UCS def", "/CMapType 2 def"]
    return "\n".join([*BEGIN, *head, *SPACE, *blocks("bfchar", rows), *END]) + "\n"


def encoding(cids, codes, is_vertical):
    """The name and the text of the CMap from codes to CIDs; None where each code is its CID."""
    if cids == codes:
        return None
    leading = sorted({0: 0, **dict(zip(codes, cids))}.items())
    rest = "\n".join([*SPACE, *blocks("cidchar", [f"<{code:04X}> {cid}" for code, cid in leading]), *END]) + "\n"
    name = tag_of(rest.encode()) + ("-V" if is_vertical else "-H")
    head = ["/CIDSystemInfo << /Registry (Adobe) /Ordering (Identity) /Supplement 0 >> def", f"/CMapName /{name} def", "/CMapType 1 def"]
    return name, "\n".join([*BEGIN, *head, *(["/WMode 1 def"] if is_vertical else []), rest])


# ---- widths and columns (9.7.4.3)

def most_frequent(items):
    """Of several the earliest."""
    count = collections.Counter(items)
    return max(items, key=lambda it: count[it])


def entries_in(array, size):
    """What W (of one number) or W2 (of three) says of CIDs, by its two forms."""
    at = 0
    if len(array) > 8191:
        raise ValueError(f"an array of {len(array)}")
    while at < len(array):
        first, second = array[at:at + 2]
        if isinstance(second, list):
            if not 0 < len(second) <= 8190 or len(second) % size:
                raise ValueError(f"a list of {len(second)}")
            yield from ((first + k, tuple(second[size * k:size * k + size])) for k in range(len(second) // size))
            at += 2
        else:
            yield from ((cid, tuple(array[at + 2:at + 2 + size])) for cid in range(first, second + 1))
            at += 2 + size


def widths_in(array, default, count):
    """The width of each CID below `count`."""
    found = [default] * count
    for cid, (width,) in entries_in(array, 1):
        found[cid] = width
    return found


def columns_in(array, default, widths, count):
    """Advance, x and y of each CID below `count`."""
    found = [(default[1], fractions.Fraction(width, 2), default[0]) for width in widths[:count]]
    for cid, row in entries_in(array, 3):
        found[cid] = row
    return found


def origin(source, glyph):
    """The y of a glyph's origin in columns, in thousandths."""
    table = source["VORG"]
    if not source.is_cff or table is None and "CFF " in source.tables:
        bearing = vertical(source, glyph)[1]
        return 880 if bearing is None else thousandths((source.top(glyph) or 0) + bearing, source.units)
    count = field(table, 6, "H")
    for k in range(count or 0):
        if field(table, 8 + 4 * k, "H") == glyph and field(table, 10 + 4 * k, "h") is not None:
            return thousandths(field(table, 10 + 4 * k, "h"), source.units)
    usual = field(table, 4, "h")
    return 880 if usual is None else thousandths(usual, source.units)


def vertical(source, glyph):
    """Advance height and top side bearing by `vmtx`, in units; None for what isn't there."""
    pairs = field(source["vhea"], 34, "H")
    if not pairs:
        return None, None
    if glyph < pairs:
        return field(source["vmtx"], 4 * glyph, "H"), field(source["vmtx"], 4 * glyph + 2, "h")
    return field(source["vmtx"], 4 * pairs - 4, "H"), field(source["vmtx"], 4 * pairs + 2 * (glyph - pairs), "h")


def column(source, glyph, width):
    """Advance, x and y of a glyph of the default; PDF's own where `vmtx` has none."""
    advance, _ = vertical(source, glyph)
    x = int(half_up(fractions.Fraction(width, 2)))
    return (-1000, x, 880) if advance is None else (-thousandths(advance, source.units), x, origin(source, glyph))


# ---- CIDSet (9.8.3)

def cid_set(count):
    """A bit for each CID, the first the highest."""
    return int("1" * count + "0" * (-count % 8), 2).to_bytes((count + 7) // 8, "big")


# ---- texts for the readers

def is_plain(character):
    """Whether readers give a character back as it is: no space, control, surrogate, mark or letter that has another form."""
    it = chr(character)
    return unicodedata.category(it)[0] in "LNPS" and unicodedata.normalize("NFKC", it) == it


def is_right_to_left(text):
    return any(unicodedata.bidirectional(it) in ("R", "AL", "AN", "RLE", "RLO", "RLI") for it in text)
