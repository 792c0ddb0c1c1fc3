"""Fonts, made from their parts."""
import functools
import struct
from itertools import accumulate

HEAD = bytes(51) + b"\1\0\0"  # (the long format of `loca`)


def u16s(*numbers):
    return struct.pack(f">{len(numbers)}H", *numbers)


def u32s(*numbers):
    return struct.pack(f">{len(numbers)}I", *numbers)


def font(tables, kind=b"\0\1\0\0"):
    """A font of these tables in this order, each padded to a multiple of four, with zeros for the checksums."""
    at, records, bodies = 12 + 16 * len(tables), b"", b""
    for tag, body in tables:
        records += tag.encode() + u32s(0, at + len(bodies), len(body))
        bodies += body + bytes(-len(body) % 4)
    return kind + u16s(len(tables), 0, 0, 0) + records + bodies


def truetype(outlines, further=()):
    """A TrueType font of these outlines, with further tables."""
    ends = [0, *accumulate(map(len, outlines))]
    tables = [("glyf", b"".join(outlines)), ("head", HEAD), ("loca", u32s(*ends)), *further]
    return font(sorted(tables))


def composite(components):
    """An outline that is put together of other glyphs."""
    parts = [u16s(0x20 if k + 1 < len(components) else 0, glyph, 0) for k, glyph in enumerate(components)]
    return b"\xff\xff" + bytes(8) + b"".join(parts)


# ---- CFF

def index(items, size=2):
    """An INDEX, whose count has `size` bytes (of CFF2 four)."""
    if not items:
        return bytes(size)
    ends = [1, *accumulate(map(len, items), initial=1)][1:]
    width = (ends[-1].bit_length() + 7) // 8
    return len(items).to_bytes(size, "big") + bytes([width]) + b"".join(it.to_bytes(width, "big") for it in ends) + b"".join(items)


@functools.cache
def number(value):
    """An integer of a dict, or of a charstring where it has 16 bits."""
    if -107 <= value <= 107:
        return bytes([value + 139])
    if 108 <= abs(value) <= 1131:
        high, low = divmod(abs(value) - 108, 256)
        return bytes([(247 if value > 0 else 251) + high, low])
    return b"\x1c" + struct.pack(">h", value)


def offset(value):
    """An integer of a dict in five bytes."""
    return b"\x1d" + struct.pack(">i", value)


def entry(operator, *operands):
    """An entry of a dict; offsets have five bytes, so that its length doesn't depend on them."""
    return b"".join(offset(it) for it in operands) + bytes([12, operator - 1200] if operator >= 1200 else [operator])


CHARSTRINGS, PRIVATE, SUBRS, ROS, FDARRAY, FDSELECT = 17, 18, 19, 1230, 1236, 1237


def private_dict(entries, subroutines, size=2):
    """A private dict that leads to its subroutines right after it, and its length without these."""
    if not subroutines:
        return entries, len(entries)
    length = len(entries) + 6
    return entries + entry(SUBRS, length) + index(subroutines, size), length


def cff(charstrings, top=b"", strings=(), subroutines=(), dicts=None, select=b"", entries=b"", local=(), times=1):
    """A CFF table. `dicts` holds private entries and local subroutines of each font dict of a CID-keyed font, `select` is
    its FDSelect; a SID-keyed font has the one private dict of `entries` and `local`. Each private dict has `times` font
    dicts that lead to it."""
    keyed = dicts is not None
    privates = [private_dict(*it) for it in (dicts if keyed else [(entries, local)])]

    def laid(places):
        start = dict(zip(("privates", "select", "array", "charstrings"), places))
        ends = [start["privates"] + sum(len(it[0]) for it in privates[:k]) for k in range(len(privates))]
        fonts = [entry(PRIVATE, length, at) for (_, length), at in zip(privates, ends)] * times
        keys = entry(ROS, 0, 0, 0) if keyed else b""
        keys += top + entry(CHARSTRINGS, start["charstrings"])
        keys += entry(FDARRAY, start["array"]) + entry(FDSELECT, start["select"]) if keyed else fonts[0]
        front = b"\1\0\4\1" + index([b"A"]) + index([keys]) + index(list(strings)) + index(list(subroutines))
        return [front, b"".join(it[0] for it in privates), select, index(fonts) if keyed else b"", index(charstrings)]

    pieces = laid((0, 0, 0, 0))
    places = [sum(map(len, pieces[:k])) for k in range(1, 5)]
    return b"".join(laid(places))


def cff_font(table, further=()):
    """A font with a CFF table."""
    return font(sorted([("CFF ", table), *further]), b"OTTO")


# ---- CFF2

# Operators of charstrings and dicts of CFF2 (OpenType, "CFF2" and "CFF2 CharString Format").
VSINDEX, BLEND = b"\x0f", b"\x10"
VSTORE, PRIVATE_VSINDEX, PRIVATE_BLEND = 24, b"\x16", b"\x17"
CALL, GLOBAL_CALL = b"\x0a", b"\x1d"


def fixed(value):
    """A number of a charstring with a fraction, in 65536ths."""
    return b"\xff" + struct.pack(">i", value)


def bias(count):
    """What is taken from the number of a subroutine before a call, of `count`."""
    return 107 if count < 1240 else 1131 if count < 33900 else 32768


def called(k, count, operator=CALL):
    """A call of subroutine k of `count`."""
    return number(k - bias(count)) + operator


def select(numbers, kind):
    """FDSelect of format 3 or 4: the font dict of each glyph."""
    starts = [k for k, it in enumerate(numbers) if k == 0 or it != numbers[k - 1]]
    if kind == 3:
        ranges = b"".join(struct.pack(">HB", k, numbers[k]) for k in starts)
        return b"\3" + u16s(len(starts)) + ranges + u16s(len(numbers))
    ranges = b"".join(struct.pack(">IH", k, numbers[k]) for k in starts)
    return b"\4" + u32s(len(starts)) + ranges + u32s(len(numbers))


def store(regions, data, rows=()):
    """An item variation store: regions as (start, peak, end) in 16384ths of each axis, item variation data as the numbers of their
    regions, each with as many rows of bytes as `rows` has for it."""
    axes = len(regions[0]) if regions else 0
    listed = u16s(axes, len(regions)) + b"".join(struct.pack(">hhh", *axis) for region in regions for axis in region)
    parts = []
    for k, held in enumerate(data):
        items = rows[k] if rows else []
        parts.append(u16s(len(items), 0 if items else len(held), len(held), *held) + b"".join(struct.pack(f"{len(held)}b", *item) for item in items))
    first = 8 + 4 * len(data)
    places, at = [], first + len(listed)
    for part in parts:
        places.append(at)
        at += len(part)
    return u16s(1) + u32s(first) + u16s(len(data)) + u32s(*places) + listed + b"".join(parts)


def cff2(charstrings, dicts=((b"", ()),), select=b"", subroutines=(), variation=b"", top=b""):
    """A CFF2 table. `dicts` has private entries and local subroutines of each font dict, `variation` is an item variation store."""
    privates = [private_dict(*it, 4) for it in dicts]
    stored = u16s(min(len(variation), 65535)) + variation if variation else b""
    shared, drawn = index(subroutines, 4), index(charstrings, 4)

    def laid(places):
        select_at, drawn_at, private_at, array_at, store_at = places
        ends = [private_at + sum(len(it[0]) for it in privates[:k]) for k in range(len(privates))]
        fonts = [entry(PRIVATE, length, at) for (_, length), at in zip(privates, ends)]
        keys = top + entry(CHARSTRINGS, drawn_at) + entry(FDARRAY, array_at)
        keys += entry(FDSELECT, select_at) if select else b""
        keys += entry(VSTORE, store_at) if stored else b""
        front = b"\2\0\5" + u16s(len(keys)) + keys + shared
        return [front, select, drawn, b"".join(it[0] for it in privates), index(fonts, 4), stored]

    pieces = laid((0,) * 5)
    places = [sum(map(len, pieces[:k])) for k in range(1, 6)]
    return b"".join(laid(places))


def advances_vary(store_, indexes):
    """HVAR with a map of indexes: for each glyph the number of its item variation data and of its row, of at most 256 each."""
    return u16s(1, 0) + u32s(20, 20 + len(store_), 0, 0) + store_ + b"\0\x17" + u16s(len(indexes)) + b"".join(map(bytes, indexes))


def metrics_vary(store_, tags):
    """MVAR of these metrics, in the order of the rows of the first item variation data."""
    records = b"".join(tag.encode() + u16s(0, k) for k, tag in enumerate(tags))
    return u16s(1, 0, 0, 8, len(tags), 12 + len(records)) + records + store_


def bends(maps):
    """avar of a map for each axis."""
    return u16s(1, 0, 0, len(maps)) + b"".join(u16s(len(it)) + b"".join(struct.pack(">hh", *(round(16384 * v) for v in pair)) for pair in it.items()) for it in maps)


def cff2_font(name, table, metrics, axes=(), further=(), characters=None, box=(0, -250, 1000, 950)):
    """A font of fontTools with this CFF2 table, further ones by their tags, and of each glyph its advance and its bearing."""
    from fontTools.fontBuilder import FontBuilder
    from fontTools.ttLib.tables.DefaultTable import DefaultTable

    names = [".notdef"] + [f"g{k}" for k in range(1, len(metrics))]
    builder = FontBuilder(1000, isTTF=False)
    builder.setupGlyphOrder(names)
    builder.setupCharacterMap({code: names[glyph] for code, glyph in (characters or {}).items()})
    builder.setupHorizontalMetrics(dict(zip(names, metrics)))
    builder.setupHorizontalHeader(ascent=880, descent=-120, lineGap=90, advanceWidthMax=max(it[0] for it in metrics))
    builder.setupNameTable({"familyName": name, "styleName": "Regular", "psName": name.replace(" ", "")})
    builder.setupOS2(sTypoAscender=880, sTypoDescender=-120, usWinAscent=950, usWinDescent=250)
    builder.setupPost(keepGlyphNames=False, underlinePosition=-100, underlineThickness=50)
    builder.setupMaxp()
    if axes:
        builder.setupFvar([(tag, *ends, tag) for tag, *ends in axes], [])
    made_font = builder.font
    made_font.sfntVersion = "OTTO"
    for tag, data in [("CFF2", table), *further]:
        made_font[tag] = DefaultTable(tag)
        made_font[tag].data = data
    head = made_font["head"]
    head.created = head.modified = 3600000000
    head.xMin, head.yMin, head.xMax, head.yMax = box
    made_font.recalcBBoxes = made_font.recalcTimestamp = False
    return made_font


# ---- worked fonts: the font, and the glyphs that are kept of it

def metrics(pairs):
    """`hhea` and `hmtx` of advances and bearings."""
    return [("hhea", bytes(34) + u16s(len(pairs))), ("hmtx", b"".join(u16s(*it) for it in pairs))]


THREE_RECORDS = u16s(0, 3, 42, *(1, 0, 0, 0, 1, 0), *(3, 1, 0x409, 1, 2, 0), *(3, 1, 0x409, 4, 2, 0)) + b"\0\x41"
GLYPH_NAMES = u32s(0x00020000) + bytes(28) + u16s(3, 258, 260, 259) + b"\1\x41\1\x42"
FONT_DICTS = [(number(k) + b"\x14", []) for k in range(8)]

WORKED = {
    "simple glyphs": (truetype([b"", bytes(12), bytes(11)]), "2"),
    "a composite": (truetype([b"", composite([5, 6]), b"", b"", b"", b"", b""]), "1"),
    "metrics": (truetype([b"", b"", b""], metrics([(500, 1), (600, 2), (600, 3)])), "1,2"),
    "font names": (truetype([b"", b"", b""], [("name", THREE_RECORDS)]), "1"),
    "glyph names": (truetype([b"", b"", b""], [("post", GLYPH_NAMES)]), "1,2"),
    "a CID-keyed font": (
        cff_font(cff([b"\x0e"] * 7, top=number(100) + b"\1", dicts=FONT_DICTS, select=b"\0\3\0\0\0\0\7\3")),
        "5,6",
    ),
    "a SID-keyed font": (cff_font(bytes.fromhex("01000401 000101010241 0001010103A011 0000 0000 00010101020E")), "0"),
}
