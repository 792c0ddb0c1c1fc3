"""Rows of `pdf_font`: what a PDF needs of a font. A row is lines `FIELD VALUE` up to an empty line, in the order of FIELDS."""
import re

from fields import repeated

FIELDS = """font coordinates shown options error kind program glyph_count cids codes is_said widths default_width w columns dw2 w2 name flags
angle ascent descent cap_height x_height stem_v font_weight bounds permission cid_set to_unicode encoding""".split() + [f"object {it}" for it in range(4, 11)]
EXPANDED = ("shown", "codes", "is_said", "to_unicode", "encoding")
# What the texts of a row's objects are put together of beside these fields.
PARTS = ["of_font", "outlines", "of_cids", "file"]
# The text of a CMap around its mappings, of which a block has 100 at most (Adobe Technical Note 5014; ISO 32000-1, 9.7.5.4 and 9.10.3).
CMAP = """/CIDInit /ProcSet findresource begin
12 dict begin
begincmap
/CIDSystemInfo << /Registry (Adobe) /Ordering ({ordering}) /Supplement 0 >> def
/CMapName /{name} def
/CMapType {kind} def
1 begincodespacerange
<0000> <FFFF>
endcodespacerange
{blocks}endcmap
CMapName currentdict /CMap defineresource pop
end
end
"""
MOST_OF_A_BLOCK = 100


def numbers(text):
    """A number, or those of a range; with four digits they are hexadecimal."""
    ends = text.split("..")
    known = [int(it, 16 if len(it) == 4 else 10) for it in ends]
    return [f"{it:04X}" if len(ends[0]) == 4 else str(it) for it in range(known[0], known[-1] + 1)]


def expanded(line, words):
    """The words, of which `1*5` and `1..5` are five; `1..4:4E00..4E64` is as many pairs as the longer range has, with the shorter by turns."""
    for word in words:
        if re.fullmatch(r"\w+\.\.\w+:\w+\.\.\w+", word):
            one, other = map(numbers, word.split(":"))
            yield from (f"{one[at % len(one)]}:{other[at % len(other)]}" for at in range(max(len(one), len(other))))
        else:
            yield from repeated(line, [word])


def cmap(pairs, form, operator, **given):
    """The text of a CMap of words CODE:VALUE."""
    blocks, lines = "", [form.format(*it.split(":")) for it in pairs]
    for at in range(0, len(lines), MOST_OF_A_BLOCK):
        block = lines[at:at + MOST_OF_A_BLOCK]
        blocks += f"{len(block)} begin{operator}\n" + "".join(f"{it}\n" for it in block) + f"end{operator}\n"
    return CMAP.format(blocks=blocks, **given).replace("\n", "~")


def value_of(line, words, library, name):
    """What a field's line says. The program is a font below the line, and named as the new font of the row."""
    key = line.words[0]
    if key in EXPANDED:
        words = list(expanded(line, words))
    if key == "program":
        font = library.font(line, line.keys()[0].get("like"))
        library.keep(line, library.new, name, font)
        return library.hex(font)
    if key == "to_unicode":
        return cmap(words, "<{}> <{}>", "bfchar", ordering="UCS", name="Adobe-Identity-UCS", kind=2)
    if key == "encoding":
        return cmap(words[1:], "<{}> {}", "cidchar", ordering="Identity", name=words[0], kind=1)
    return " ".join(words)


def row(line, library):
    """The text of a row: its own fields, and those of the row that it is `like`."""
    name, like = line.words[1], line.keys()[0].get("like")
    fields = dict(library.pdf[like]) if like else {}
    if like:
        library.new[name] = library.new.get(like)
    for child in line.children:
        size = 2 if child.words[0] == "object" else 1
        key, words = " ".join(child.words[:size]), child.words[size:]
        if key == "without":
            for it in words:
                del fields[it.replace("-", " ")]
        elif key in FIELDS + PARTS:
            if key == "program":
                library.new.pop(name, None)
            fields[key] = value_of(child, words, library, name)
        else:
            child.fails(f"a row has no field {key}")
    library.pdf[name] = fields
    for _ in range(2):
        fields = {key: re.sub(r"\{(\w+)\}", lambda it: fields[it[1]], value) for key, value in fields.items()}
    return "\n".join([f"row {name}"] + [f"{key} {fields[key]}".rstrip() for key in FIELDS if key in fields] + [""])
