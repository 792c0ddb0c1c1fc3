"""The parts of a CFF table: INDEXes, DICTs and charstrings."""
import re

import fields

# The operators of DICTs and of Type 2 charstrings by their names, those of CFF2 among them; 12 is an escape to a second byte.
DICT = """0 version 1 Notice 2 FullName 3 FamilyName 4 Weight 5 FontBBox 6 BlueValues 7 OtherBlues 8 FamilyBlues 9 FamilyOtherBlues
10 StdHW 11 StdVW 13 UniqueID 14 XUID 15 charset 16 Encoding 17 CharStrings 18 Private 19 Subrs 20 defaultWidthX 21 nominalWidthX
22 vsindex 23 blend 24 vstore 12.0 Copyright 12.1 isFixedPitch 12.2 ItalicAngle 12.3 UnderlinePosition 12.4 UnderlineThickness 12.5 PaintType 12.6 CharstringType
12.7 FontMatrix 12.8 StrokeWidth 12.9 BlueScale 12.10 BlueShift 12.11 BlueFuzz 12.12 StemSnapH 12.13 StemSnapV 12.14 ForceBold
12.17 LanguageGroup 12.18 ExpansionFactor 12.19 initialRandomSeed 12.20 SyntheticBase 12.21 PostScript 12.22 BaseFontName
12.23 BaseFontBlend 12.30 ROS 12.31 CIDFontVersion 12.32 CIDFontRevision 12.33 CIDFontType 12.34 CIDCount 12.35 UIDBase 12.36 FDArray
12.37 FDSelect 12.38 FontName"""
TYPE_2 = """1 hstem 3 vstem 4 vmoveto 5 rlineto 6 hlineto 7 vlineto 8 rrcurveto 10 callsubr 11 return 14 endchar 15 vsindex 16 blend 18 hstemhm 19 hintmask
20 cntrmask 21 rmoveto 22 hmoveto 23 vstemhm 24 rcurveline 25 rlinecurve 26 vvcurveto 27 hhcurveto 29 callgsubr 30 vhcurveto
31 hvcurveto 12.3 and 12.4 or 12.5 not 12.9 abs 12.10 add 12.11 sub 12.12 div 12.14 neg 12.15 eq 12.18 drop 12.20 put 12.21 get
12.22 ifelse 12.23 random 12.24 mul 12.26 sqrt 12.27 dup 12.28 exch 12.29 index 12.30 roll 12.34 hflex 12.35 flex 12.36 hflex1
12.37 flex1"""
REAL = re.compile(r"-?\d*[.E][\d.E-]*")
NIBBLES = {**{str(it): f"{it:x}" for it in range(10)}, ".": "a", "E-": "c", "E": "b", "-": "e"}


def operators(text):
    """Each name with its bytes."""
    words = text.split()
    return {name: bytes(map(int, code.split("."))) for code, name in zip(words[::2], words[1::2])}


DICT_OPERATORS, CHARSTRING_OPERATORS = operators(DICT), operators(TYPE_2)


def operator(line, word, known):
    """An operator by its name, or by its number, as `op:13` or `op:12.99`."""
    if word in known:
        return known[word]
    found = re.fullmatch(r"op:(\d+)(?:\.(\d+))?", word)
    if not found:
        line.fails(f"there is no operator {word}")
    return b"".join(fields.whole(line, int(it), 1, False, word) for it in found.groups() if it)


def integer(line, value, word):
    """An integer in its shortest form: one byte, two, or 28 with two more. None where it needs more."""
    if -107 <= value <= 107:
        return bytes([value + 139])
    if 108 <= abs(value) <= 1131:
        front, rest = divmod(abs(value) - 108, 256)
        return bytes([(247 if value > 0 else 251) + front, rest])
    return b"\x1c" + fields.whole(line, value, 2, True, word) if -32768 <= value <= 32767 else None


def real(line, text):
    """A real number of a DICT, whose characters are its nibbles."""
    nibbles = re.findall(r"E-|[\d.E-]", text)
    if "".join(nibbles) != text:
        line.fails(f"{text} is no real number")
    digits = "".join(NIBBLES[it] for it in nibbles) + "f"
    return b"\x1e" + bytes.fromhex(digits + "f" * (len(digits) % 2))


def operand(line, word, labels, formats):
    """A number of a DICT: `28:` and `29:` in front are the byte of a form that isn't the shortest; with a point or `E`, or
    after `real:`, it is a real."""
    if word.startswith("hex:"):
        return bytes.fromhex(word[4:])
    if word.startswith("real:") or REAL.fullmatch(word):
        return real(line, word.partition(":")[2] or word)
    form, sign, rest = word.rpartition(":")
    value = fields.number(line, rest, labels, formats)
    if value != int(value) or form not in ("", "28", "29"):
        line.fails(f"{word} is no operand")
    made = integer(line, int(value), word) if not form else None
    if form == "28":
        return b"\x1c" + fields.whole(line, value, 2, True, word)
    return made or b"\x1d" + fields.whole(line, value, 4, True, word)


def dictionary(line, labels, formats):
    """A line `DICT` with lines `OPERATOR OPERAND..` (without an operator: `operands`)."""
    made = b""
    for entry in line.children:
        for word in fields.repeated(entry, entry.words[1:]):
            made += operand(entry, word, labels, formats)
        if entry.words[0] != "operands":
            made += operator(entry, entry.words[0], DICT_OPERATORS)
    return made


def charstring(line, labels, formats):
    """A line `charstring`: numbers and operators in their order. `28:` in front of a number is that form, `255:` a number of 16.16
    bits, `mask:` the bytes after a mask, `hex:` what is none of them."""
    made = b""
    for word in fields.repeated(line, line.words[1:]):
        front, sign, rest = word.rpartition(":")
        if front in ("mask", "hex"):
            made += bytes.fromhex(rest)
        elif word in CHARSTRING_OPERATORS or front == "op":
            made += operator(line, word, CHARSTRING_OPERATORS)
        elif front == "255":
            made += b"\xff" + fields.whole(line, fields.number(line, rest, labels, formats) * 65536, 4, True, word)
        else:
            value = fields.number(line, rest, labels, formats)
            form = integer(line, int(value), word) if value == int(value) and not front else None
            if not form and front != "28":
                line.fails(f"{word} is no number of a charstring")
            made += form or b"\x1c" + fields.whole(line, value, 2, True, word)
    return made


def index(line, items):
    """A line `INDEX` with the objects below it. Its count, offSize and offsets are theirs where the line doesn't give others
    (`offsets=0,..` gives the first one alone)."""
    pairs, others = line.keys()
    if others or set(pairs) - {"count", "offSize", "offsets", "countSize"}:
        line.fails("an INDEX has count=, offSize=, offsets= and countSize= (4 in CFF2)")
    count = fields.whole(line, int(pairs.get("count", len(items))), int(pairs.get("countSize", 2)), False, "the count")
    if not items and not pairs.keys() & {"offSize", "offsets"}:
        return count
    offsets = [1]
    for item in items:
        offsets.append(offsets[-1] + len(item))
    size = int(pairs.get("offSize", (max(offsets[-1].bit_length(), 1) + 7) // 8))
    if "offsets" in pairs:
        given = pairs["offsets"].split(",")
        offsets = [int(it) for it in given if it != ".."] + (offsets[len(given) - 1:] if given[-1] == ".." else [])
    return count + bytes([size]) + b"".join(fields.whole(line, it, size, False, f"offset {it}") for it in offsets) + b"".join(items)
