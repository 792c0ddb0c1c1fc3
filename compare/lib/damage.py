"""Damage: copies of fonts in which a part is changed, mostly so that it stays plausible. Each way changes the copy, and says what was done."""
import struct

import explain
import fonts
import made
from fonts import directory, tables_of, u16, u32

# Words that are often a limit of something.
WORDS = (0, 1, 2, 127, 128, 255, 256, 390, 391, 32767, 32768, 65535)
# Of each of these tables the first FRONT bytes are aimed at, besides those of the kept glyphs.
READ, FRONT = {"head", "hhea", "hmtx", "maxp", "name", "post", "loca", "glyf", "cvt ", "CFF ", "CFF2", "fvar", "avar", "gvar", "HVAR", "MVAR"}, 300


# ---- bytes of a stretch

def changed_bytes(rng, copy, first, last):
    places = [rng.randrange(first, last) for _ in range(rng.randint(1, 3))]
    for place in places:
        copy[place] ^= 1 << rng.randrange(8) if rng.random() < 0.5 else rng.randint(1, 255)
    return f"bytes {places} are {[copy[it] for it in places]}"


def changed_word(rng, copy, first, last):
    size = rng.choice((2, 4))
    place = rng.randrange(first, max(first + 1, last - size + 1))
    value = rng.choice(WORDS) if rng.random() < 0.7 else rng.randrange(256 ** size)
    size = min(size, len(copy) - place)
    copy[place:place + size] = (value % 256 ** size).to_bytes(size, "big")
    return f"word {place} is {value}"


def changed_stretch(rng, copy, first, last):
    length = min(rng.randint(2, 40), last - first)
    place = rng.randrange(first, last - length + 1)
    source = rng.randrange(len(copy) - length)
    made = rng.choice((bytes(length), b"\xff" * length, bytes(copy[source:source + length]), rng.randbytes(length)))
    copy[place:place + length] = made
    return f"{length} bytes at {place} are {made.hex()}"


def moved(rng, copy, first, last):
    """Some bytes of a place are cut out, or there twice; the last ones of the place are made or lost for it."""
    length = min(rng.randint(1, 12), (last - first + 1) // 2)
    place = rng.randrange(first, last - length + 1)
    if rng.random() < 0.5:
        copy[first:last] = copy[first:place] + copy[place + length:last] + bytes(length)
        return f"{length} bytes at {place} are cut out of {first} to {last}"
    copy[first:last] = (copy[first:place + length] + copy[place:last])[:last - first]
    return f"{length} bytes at {place} are twice in {first} to {last}"


KINDS = (changed_bytes, changed_bytes, changed_word, changed_stretch, moved)


def changed(rng, copy, first, last):
    """One or two damages of a stretch."""
    return ", ".join([rng.choice(KINDS)(rng, copy, first, last) for _ in range(rng.choice((1, 1, 2)))])


# ---- values that are nearly right

def neighbour(rng, copy, first, last):
    """A word at an even distance, or a byte, is one or a few more or less, or another word of the stretch."""
    size = rng.choice((1, 2, 2, 2, 4))
    at = first + min(size, 2) * rng.randrange(max((last - first) // min(size, 2), 1))
    size = min(size, len(copy) - at)
    value, other = int.from_bytes(copy[at:at + size], "big"), first + 2 * rng.randrange(max((last - first) // 2, 1))
    made = value + rng.choice((1, -1, 1, -1, 2, -2, 3, 4, -4, 8, 12, -12)) if rng.random() < 0.7 else int.from_bytes(copy[other:other + size], "big")
    copy[at:at + size] = (made % 256 ** size).to_bytes(size, "big")
    return f"{size} bytes at {at} are {made}"


def spots(data, index, glyphs):
    """The parts of a face that a damage is aimed at: a name, the first byte and the one after the last."""
    at, tables = u32(data, 12 + 4 * index) if data[:4] == b"ttcf" else 0, directory(data, index)
    found = [("directory", at, at + 12 + 16 * u16(data, at + 4))] + [("collection", 8, 16)] * bool(at)
    found += [(tag, first, first + min(size, FRONT)) for tag, (first, size) in tables.items() if tag in READ]
    try:
        for tag, size in (("hmtx", 4), ("post", 2), ("loca", 4 if data[tables["head"][0] + 51] else 2)):
            start = tables[tag][0] + (34 if tag == "post" else 0)
            found += [(f"{tag} of glyphs", start + size * glyph, start + size * glyph + 2 * size) for glyph in glyphs]
    except LookupError:
        pass
    if "glyf" in tables and "loca" in tables:
        (loca, length), (glyf, _), is_long = tables["loca"], tables["glyf"], data[tables["head"][0] + 51]
        for glyph in [it for it in glyphs if (it + 2) * (4 if is_long else 2) <= length]:
            first, last = struct.unpack_from(">II", data, loca + 4 * glyph) if is_long else (2 * it for it in struct.unpack_from(">HH", data, loca + 2 * glyph))
            found += [("outlines", glyf + first, glyf + last), ("outlines' heads", glyf + first, glyf + min(first + 18, last))]
    if "CFF " in tables:
        found += spots_of_cff(data, *tables["CFF "], glyphs)
    return [(name, first, min(last, len(data))) for name, first, last in found if first < min(last, len(data))]


def spots_of_cff(data, start, length, glyphs):
    table = explain.Table(data[start:start + length], glyphs)
    found = [("top dict", *table.top_range), ("charset", *[(explain.last(table.top, explain.CHARSET) or [0])[-1] + k for k in (0, 40)])]
    for (first, last), _, local in table.privates.values():
        found += [("private dicts", first, last)] + [("subroutines", *local.range(k)) for k in range(min(local.count, 60)) if local.range(k)] if local else [("private dicts", first, last)]
    found += [("subroutines", *table.subroutines.range(k)) for k in range(min(table.subroutines.count, 60)) if table.subroutines.range(k)]
    found += [("INDEX", it.start, it.start + 12) for it in (table.names, table.tops, table.strings, table.subroutines, table.charstrings)]
    if table.is_keyed:
        found += [("FDSelect", table.select, table.select + 60), ("FDArray", table.font_dicts.start, table.font_dicts.end)]
    for glyph in glyphs:
        size = (table.charstrings.base - table.charstrings.start - 2) // (table.charstrings.count + 1)
        at = table.charstrings.start + 3 + size * glyph
        found += [("charstrings' offsets", at, at + 2 * size)] + [("charstrings", *table.charstrings.range(glyph))] * bool(table.charstrings.range(glyph))
    return [(name, start + first, start + last) for name, first, last in found]


def of_tables(rng, copy, data, index, others):
    """Two records have each other's table, or a table is another font's."""
    start = u32(data, 12 + 4 * index) if data[:4] == b"ttcf" else 0
    one, two = (start + 12 + 16 * rng.randrange(u16(data, start + 4)) for _ in range(2))
    other, tag = rng.choice(others), bytes(copy[one:one + 4]).decode("latin-1")
    if rng.random() < 0.3 or tag not in directory(other):
        copy[one + 8:one + 16], copy[two + 8:two + 16] = copy[two + 8:two + 16], copy[one + 8:one + 16]
        return f"the records at {one} and {two} have each other's table"
    first, length = directory(other)[tag]
    copy[one + 8:one + 16] = struct.pack(">II", len(copy), length)
    copy.extend(other[first:first + length])
    return f"{tag!r} is another font's"


def damaged(rng, data, index, glyphs, others):
    """A copy with one damage, or two or three, and what was done to it."""
    copy, done, places = bytearray(data), [], spots(data, index, glyphs)
    names = sorted({it[0] for it in places})
    for _ in range(rng.choice((1, 1, 1, 1, 1, 1, 2, 3))):
        draw, name = rng.random(), rng.choice(names)
        there = [it for it in places if it[0] == name]
        _, first, last = rng.choice(there)
        if draw < 0.05:
            length = min(max(0, rng.choice((first, last, rng.randrange(len(copy) + 1))) + rng.choice((0, -1, 1, -2))), len(copy))
            del copy[length:]
            return bytes(copy), "; ".join([*done, f"cut to {length} bytes"])
        if draw < 0.13:
            done.append(of_tables(rng, copy, data, index, others))
        elif draw < 0.3 and len(there) > 1:
            # (an outline ends as another's, or a record is another one)
            _, begin, end = rng.choice(there)
            shift = rng.randrange(min(last - first, end - begin))
            copy[first + shift:min(last, first + end - begin)] = copy[begin + shift:min(end, begin + last - first)]
            done.append(f"{name}: {first + shift} is as {begin + shift} is")
        else:
            done.append(f"{name}: " + (neighbour if draw < 0.65 else rng.choice(KINDS))(rng, copy, first, last))
    return bytes(copy), "; ".join(done)


def by_kinds(found):
    """Makes damaged copies of fonts of all kinds."""
    contents = {path: fonts.content(path) for _, path in found}
    others = list(contents.values())

    def make(rng, number):
        path = found[number % len(found)][1]
        data, index = contents[path], rng.randrange(fonts.face_count(contents[path]))
        count = fonts.count_in(data, index)
        glyphs = [rng.randrange(count) for _ in range(rng.choice((1, 3, 10, 20, 20)))]
        made, what = damaged(rng, data, index, glyphs, others)
        glyphs += [count + rng.choice((0, 1, 100))] * (rng.random() < 0.02)
        return path, data, rng.randrange(4) if rng.random() < 0.02 else index, glyphs, what, made
    return make


# ---- what a PDF has of a font

# Tables of which a rule has a next source where they are missing, and the fields of others that are changed: offsets and sizes.
LOOSE = ("OS/2", "post", "name", "vhea", "vmtx", "VORG", "VVAR")
FIELDS = {"head": [(36, 2), (38, 2), (40, 2), (42, 2), (44, 2)], "hhea": [(4, 2), (6, 2)], "post": [(4, 4), (12, 4)], "vhea": [(34, 2)], "VORG": [(4, 2), (6, 2)],
          "OS/2": [(0, 2), (4, 2), (8, 2), (30, 1), (32, 1), (33, 1), (62, 2), (68, 2), (70, 2), (74, 2), (76, 2), (86, 2), (88, 2)]}
RIGHTS = (0, 2, 4, 6, 8, 10, 0x100, 0x102, 0x104, 0x200, 0x208, 0x302)
EXTREMES = (0, 1, 2, 3, 4, 5, 8, 9, 10, 0x100, 0x102, 0x200, 0x7FFF, 0x8000, 0xFFFF)


def of_loose_tables(rng, data, index, others):
    """A copy whose loose tables are damaged, some by those of other fonts; what was done."""
    start = u32(data, 12 + 4 * index) if data[:4] == b"ttcf" else 0
    tables, done = tables_of(data, index), []
    for _ in range(rng.choice((1, 1, 2, 3))):
        tag = rng.choice([it for it in (*LOOSE, "head", "hhea", "OS/2", "OS/2") if tables.get(it)])
        table, way = bytearray(tables[tag]), rng.choice(("missing", "cut", "field", "bytes", "other"))
        if tag == "OS/2" and way == "bytes":
            table[0:2], table[8:10] = struct.pack(">H", rng.randrange(5)), struct.pack(">H", rng.choice(RIGHTS))
            done.append(f"fsType is {table[9] + 256 * table[8]} in version {table[1]}")
        elif tag in ("head", "hhea") or way == "field" and tag in FIELDS:
            at, size = rng.choice(FIELDS[tag])
            value = rng.choice(EXTREMES) if rng.random() < 0.7 else rng.getrandbits(16)
            table[at:at + size] = (value % 256 ** size if size < 4 else value << 16 | value).to_bytes(size, "big")
            done.append(f"{tag} {at} is {value}")
        elif way == "missing":
            del tables[tag]
            done.append(f"no {tag}")
            continue
        elif way == "cut":
            table = table[:rng.randrange(min(len(table), 100 if tag == "OS/2" else len(table)))]
            done.append(f"{tag} has {len(table)} bytes")
        elif way == "other" and others.get(tag):
            table = bytearray(rng.choice(others[tag]))
            done.append(f"another {tag}")
        else:
            for _ in range(rng.randint(1, 4)):
                table[rng.randrange(len(table))] = rng.randrange(256)
            done.append(f"bytes of {tag}")
        tables[tag] = bytes(table)
    return made.font(sorted(tables.items()), data[start:start + 4]), ", ".join(done)
