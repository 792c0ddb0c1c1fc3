"""Typed fields: numbers, tags, texts, and the structures of formats.txt."""
import os
import re
from fractions import Fraction

import reading

# Type: bytes, whether it has a sign, and the parts of one.
TYPES = {"u8": (1, False, 1), "i8": (1, True, 1), "u16": (2, False, 1), "i16": (2, True, 1), "u32": (4, False, 1),
         "i32": (4, True, 1), "i64": (8, True, 1), "offset16": (2, False, 1), "offset32": (4, False, 1),
         "F2Dot14": (2, True, 1 << 14), "Fixed": (4, True, 1 << 16)}
TERM = re.compile(r"([+-]?)(?:@([\w.]+)|(0x[0-9a-fA-F]+)|(\d+(?:\.\d+)?)|([A-Z][A-Z_0-9]+))")
PLAIN = re.compile(r"-?\d+")
VERSION = re.compile(r"(\d+)\.(\d)")


class Formats:
    """The structures and the names of bits in formats.txt."""

    def __init__(self, path):
        self.structs, self.tables, self.bits = {}, {}, {}
        for entry in reading.read(path, os.path.basename(path)):
            if not isinstance(entry, reading.Line):
                continue
            kind, name = entry.words[:2]
            if kind == "bits":
                self.bits.update((line.words[1], int(line.words[0], 0)) for line in entry.children)
                continue
            self.structs[name] = [(word, line.words[0]) for line in entry.children for word in line.words[1:]]
            if kind == "table":
                self.tables[name] = (entry.words + [name])[2][:4].ljust(4)


class Labels:
    """The labels of a table: those of the last round, by which `@NAME` counts, and those of this round."""

    def __init__(self):
        self.last, self.new = {}, {}


def unquoted(word):
    return word.replace('"', "")


def number(line, word, labels, formats):
    """The value of a sum of numbers, labels and names of bits."""
    if PLAIN.fullmatch(word):
        return int(word)
    total, at = 0, 0
    for part in word.split("|"):
        at = 0
        while at < len(part):
            found = TERM.match(part, at)
            if not found or (at and not found[1]):
                line.fails(f"{word} is no number")
            sign, label, hexadecimal, decimal, name = found.groups()
            if label and label not in labels.last and labels.last:
                line.fails(f"there is no label {label}")
            if name and name not in formats.bits:
                line.fails(f"there is no bit {name}")
            value = labels.last.get(label, 0) if label else int(hexadecimal, 16) if hexadecimal else formats.bits[name] if name else Fraction(decimal) if "." in decimal else int(decimal)
            total, at = total + (-value if sign == "-" else value), found.end()
        if not part:
            line.fails(f"{word} is no number")
    return total


def repeated(line, words):
    """The words, where WORD*COUNT is that many, and A..B are the numbers from A to B."""
    for word in words:
        front, sign, count = word.rpartition("*")
        ends = re.fullmatch(r"(\d+)\.\.(\d+)", word)
        if ends:
            yield from map(str, range(int(ends[1]), int(ends[2]) + 1))
        elif sign and front and not word.endswith('"'):
            if not count.isdigit():
                line.fails(f"{count} is no count")
            yield from [front] * int(count)
        else:
            yield word


def whole(line, value, size, signed, word):
    """A whole number in that many bytes, the most significant first."""
    least, most = (-(1 << 8 * size - 1), (1 << 8 * size - 1) - 1) if signed else (0, (1 << 8 * size) - 1)
    if value != int(value) or not least <= value <= most:
        line.fails(f"{word} isn't in this type")
    return int(value).to_bytes(size, "big", signed=signed)


def field(line, kind, word, labels, formats):
    """The bytes of one field."""
    if kind == "tag" and (word == "0" or word.startswith("hex:")):
        return bytes.fromhex(word[4:]) or bytes(4)
    if kind == "tag":
        text = unquoted(word)
        if len(text) != 4:
            line.fails(f"{word} isn't a tag")
        return text.encode("ascii")
    version = VERSION.fullmatch(word)
    if kind == "Version16Dot16":
        value = (int(version[1]) << 16) + (int(version[2]) << 12) if version else number(line, word, labels, formats)
        return whole(line, value, 4, False, word)
    size, signed, parts = TYPES[kind]
    if parts > 1 and word.startswith("0x"):
        return whole(line, int(word, 16), size, False, word)
    return whole(line, number(line, word, labels, formats) * parts, size, signed, word)


def is_type(word):
    return word in TYPES or word in ("tag", "Version16Dot16")


def fields(line, labels, formats):
    """A line `TYPE VALUE.. TYPE VALUE..`."""
    kind, made = None, b""
    for word in repeated(line, line.words):
        if is_type(word):
            kind = word
        else:
            made += field(line, kind, word, labels, formats)
    return made


def struct(line, labels, formats):
    """A line `STRUCTURE VALUE.. FIELD=VALUE..`: the first fields in their order, the others by name; the rest are 0. `STRUCTURE
    VALUE,VALUE VALUE,VALUE` is several structures."""
    members = formats.structs[line.words[0]]
    if len(line.words) > 1 and all("," in it for it in line.words[1:]):
        each = [reading.Line([line.words[0], *it.split(",")], line.where) for it in line.words[1:]]
        return b"".join(struct(it, labels, formats) for it in each)
    pairs, others = line.keys()
    if len(others) > len(members):
        line.fails(f"{line.words[0]} has {len(members)} fields")
    given = dict(zip((name for name, _ in members), others))
    for name, value in pairs.items():
        if name not in dict(members):
            line.fails(f"{line.words[0]} has no field {name}")
        if name in given:
            line.fails(f"{name} is given twice")
        given[name] = value
    return b"".join(field(line, kind, given.get(name, "0"), labels, formats) for name, kind in members)


def rectangle(line):
    """A line `rectangle LEFT LOWER RIGHT UPPER [overlap]`: a simple glyph of four points, from the left lower corner on up, without
    instructions and as short as can be, padded to 2 bytes."""
    left, lower, right, upper = map(int, line.words[1:5])
    flags, columns = [1, 1, 1, 1], [b"", b""]
    flags[0] |= 64 * (line.words[5:] == ["overlap"])
    for axis, deltas in enumerate(((left, 0, right - left, 0), (lower, upper - lower, 0, lower - upper))):
        short, same = 2 << axis, 16 << axis
        for point, delta in enumerate(deltas):
            if delta == 0:
                flags[point] |= same
            elif abs(delta) < 256:
                flags[point] |= short | same * (delta > 0)
                columns[axis] += bytes([abs(delta)])
            else:
                columns[axis] += delta.to_bytes(2, "big", signed=True)
    made = b"".join(it.to_bytes(2, "big", signed=True) for it in (1, left, lower, right, upper, 3, 0)) + bytes(flags) + b"".join(columns)
    return made + bytes(len(made) % 2)


def texts(line):
    """A line `text`, `utf16`, `pascal` or `hex`."""
    kind, made = line.words[0], b""
    for word in repeated(line, line.words[1:]):
        if kind == "hex":
            if not re.fullmatch(r"(?:[0-9a-f]{2})+", word):
                line.fails(f"{word} isn't hexadecimal")
            made += bytes.fromhex(word)
            continue
        text = unquoted(word).encode("utf-16-be" if kind == "utf16" else "ascii")
        made += bytes([len(text)]) + text if kind == "pascal" else text
    return made


def filler(line):
    """A line `filler COUNT`: byte i is 7i + i / 256 in 8 bits, so that no stretch of them repeats."""
    return bytes((7 * it + it // 256) % 256 for it in range(int(line.words[1])))


RUNS = {"deltas0": (0x80, None), "deltas8": (0, "i8"), "deltas16": (0x40, "i16"), "points8": (0, "u8")}


def packed(line, labels, formats):
    """A line of runs `deltas8 VALUE..`, `deltas16 VALUE..`, `deltas0 COUNT` and `points8 VALUE..`: each is a
    control byte, which has its length, and its values (packed deltas and point numbers)."""
    runs, made = [], b""
    for word in repeated(line, line.words):
        if word in RUNS:
            runs.append((word, []))
        else:
            runs[-1][1].append(word)
    for kind, values in runs:
        control, which = RUNS[kind]
        count = int(values[0]) if which is None else len(values)
        if not 1 <= count <= (64 if kind.startswith("deltas") else 128):
            line.fails(f"a run of {count}")
        made += bytes([control | count - 1]) + b"".join(field(line, which, word, labels, formats) for word in values if which)
    return made
