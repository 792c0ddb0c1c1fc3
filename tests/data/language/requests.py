"""The entries of a readable file as lines of today's files: named bytes, and rows of a request and what it gives."""
from fractions import Fraction

import pdf
import sfnt
from reading import Line

STATUS = ["DONE", "UNKNOWN_KIND", "MALFORMED_FONT", "UNIMPLEMENTED", "SUBSET_ERROR", "OVERFLOW_ERROR", "CFF_ERROR", "OUT_OF_MEMORY",
          "BUFFER_TOO_SMALL", "NO_DEPTH", "UNKNOWN_OPTION", "NOT_PERMITTED", "INVALID_TEXT", "NO_CMAP", "BITMAPS_ALONE"]
DROP = {"hinting": 1, "names": 2, "glyph_names": 4}
# What a row has after its name, each with what it is where the line doesn't give it (None: the line has to).
SUBSET, LIMITS, BOUND = ["font", "face", "glyphs"], ["tokens", "depth"], ["most"]
NEW, EMBEDDED = ["status", "new"], ["status", "new", "cids", "widths"]
ROWS = {"subset": SUBSET + NEW, "limits": SUBSET + LIMITS + NEW, "options": SUBSET + LIMITS + ["drop"] + NEW,
        "bounded_options": SUBSET + LIMITS + ["drop"] + BOUND + NEW, "embed": SUBSET + EMBEDDED,
        "embed_options": SUBSET + LIMITS + ["drop"] + EMBEDDED, "embed_bounded_options": SUBSET + LIMITS + ["drop"] + BOUND + EMBEDDED,
        "subset_at": SUBSET + ["at"] + LIMITS + ["drop"] + BOUND + NEW, "embed_at": SUBSET + ["at"] + LIMITS + ["drop"] + BOUND + EMBEDDED,
        "instance": SUBSET + ["at", "steps"], "advances": SUBSET + ["at", "tokens", "status", "units", "widths", "heights"],
        "kinds": SUBSET + ["status", "kinds", "pdf"]}
DEFAULTS = {"font": None, "face": "0", "glyphs": "-", "tokens": "0", "depth": "0", "drop": "0", "most": "0", "at": "-", "steps": None,
            "status": "DONE", "new": "-", "cids": "-", "widths": "-", "units": "-", "heights": "-",
            "kinds": "-", "pdf": "DONE"}
# Rows that are as they are in today's file, but for words `TAG=VALUE` with values in units of the axis.
PLAIN = {"nearest", "axes", "scalar", "numbers", "deltas", "tuple", "moved", "advance", "read", "written", "fits", "coordinates", "shrunk", "shrunk_font"}


def is_bytes(word):
    return word in ("font", "bytes", "base")


def coordinates(line, text):
    """`wght=650,wdth=62.5` with values in 65536ths."""
    found = []
    for setting in text.split(","):
        tag, sign, value = setting.partition("=")
        try:
            exact = Fraction(value) * 65536
        except ValueError:
            line.fails(f"{setting} isn't TAG=VALUE")
        if exact.denominator != 1 or not -1 << 31 <= exact < 1 << 31:
            line.fails(f"{value} isn't a number of 65536ths")
        found.append(f"{tag}={exact}")
    return ",".join(found)


def drop(line, text):
    """The sum of what is dropped, by names or numbers."""
    total = 0
    for word in text.split("|"):
        if not word.isdigit() and word not in DROP:
            line.fails(f"{word} can't be dropped")
        total += DROP.get(word) or int(word)
    return str(total)


class Library:
    """What has a name: fonts and other bytes, the new fonts of rows, and the fields of rows for PDF; and the fonts of rows/fonts."""

    def __init__(self, formats, shared=()):
        self.formats, self.fonts, self.new, self.pdf, self.shared = formats, {}, {}, {}, dict(shared)

    def named(self, line, name):
        """The font NAME, `new:NAME`, the new font of a row, or `fonts:NAME`, one of rows/fonts."""
        where, _, last = name.rpartition(":")
        found = {"": self.fonts, "new": self.new, "fonts": self.shared}.get(where, {}).get(last)
        if found is None:
            line.fails(f"there is no {name} in front of it")
        return found

    def keep(self, line, where, name, font):
        if name in where:
            line.fails(f"{name} is there twice")
        where[name] = font

    def font(self, entry, like=None):
        """The font of the lines below an entry, which change the one that it is like."""
        if like is None and (not entry.children or entry.children[0].words[0] not in ("sfnt", "collection")):
            font = sfnt.Font()
            font.tables = [sfnt.Table("", entry.children)]
            return font
        font = sfnt.Font(self.named(entry, like) if like else None)
        for line in entry.children:
            self.change(font, line)
        return font

    def change(self, font, line):
        """One line of a font."""
        word, rest = line.words[0], line.words[1:]
        if word == "sfnt":
            self.head(font, line)
        elif word == "collection":
            font.faces = [self.named(line, it) for it in rest]
        elif word == "without":
            del font.tables[font.find(line, rest[0])]
        elif word in ("part", "entry", "set"):
            at = font.find(line, rest[0] if word == "set" else rest[0].rpartition(".")[0])
            table = font.tables[at]
            font.tables[at] = table.set(line, self.formats) if word == "set" else table.part(line) if word == "part" else table.entry(line)
        elif word == "cut" and len(rest) == 2:
            at = font.find(line, rest[0])
            font.tables[at] = sfnt.Table(font.tables[at].tag, font.tables[at].lines + [Line(["cut", rest[1]], line.where)])
        elif word in ("cut", "patch"):
            font.changes.append(line)
        elif word == "table":
            font.put(sfnt.Table(sfnt.fields.unquoted(rest[0]).ljust(4), line.children))
        elif word in self.formats.tables:
            font.put(sfnt.Table(self.formats.tables[word], [Line(line.words, line.where)] + line.children))
        else:
            line.fails(f"a font has no line {word}")

    def head(self, font, line):
        """A line `sfnt VERSION`, with how the file is put together."""
        pairs, others = line.keys()
        version = sfnt.VERSIONS.get(others[0]) or int(others[0], 16).to_bytes(4, "big")
        if set(others[1:]) - {"checksums", "packed", "padded"} or set(pairs) - {"numTables", "search", "order"}:
            line.fails("sfnt VERSION checksums packed padded numTables=N search=A,B,C order=TAG,..")
        font.version, font.options = version, {it: True for it in others[1:]}
        if "numTables" in pairs:
            font.options["numTables"] = int(pairs["numTables"])
        if "search" in pairs:
            font.options["search"] = [int(it) for it in pairs["search"].split(",")]
        if "order" in pairs:
            font.options["order"] = [it.ljust(4) for it in pairs["order"].split(",")]

    def hex(self, font):
        return font.bytes(self.formats).hex() or "-"

    def row(self, line):
        """A row's line in today's file."""
        kind, name = line.words[:2]
        pairs, others = line.keys(line.words[2:])
        wanted, like = ROWS[kind], pairs.pop("like", None)
        if others or set(pairs) - set(wanted):
            line.fails(f"{kind} NAME " + " ".join(f"{it}=.." for it in wanted))
        given = {key: pairs.get(key, DEFAULTS[key]) for key in wanted}
        for key, value in given.items():
            if value is None:
                line.fails(f"{key}= is missing")
        if given["font"] not in self.fonts:
            line.fails(f"there is no font {given['font']} in front of it")
        if kind in ("advances", "kinds"):
            # (each test reads this file alone, so that the font is in the row)
            given["font"] = self.hex(self.fonts[given["font"]])
        if "status" in given:
            self.gives(line, name, given, like)
        if "drop" in given:
            given["drop"] = drop(line, given["drop"])
        if given.get("at", "-") != "-":
            given["at"] = coordinates(line, given["at"])
        return " ".join([kind, name, *given.values()])

    def gives(self, line, name, given, like):
        """The statuses of a row by their numbers, and its new font."""
        for key in given.keys() & {"status", "pdf"}:
            if given[key] not in STATUS:
                line.fails(f"there is no status {given[key]}")
            given[key] = str(STATUS.index(given[key]))
        if "new" not in given:
            return
        is_made = like is not None or line.children != []
        if (given["status"] == "0") == (given["new"] == "-" and not is_made) or (given["new"] != "-" and is_made):
            line.fails("a row has a status, or its new font below it, or new=ROW")
        if given["status"] == "0":
            font = self.named(line, f"new:{given['new']}") if given["new"] != "-" else self.font(line, like)
            self.keep(line, self.new, name, font)
            given["new"] = self.hex(font)

    def entry(self, line):
        """An entry's line in today's file; None for a base font, which has none."""
        kind = line.words[0]
        if is_bytes(kind):
            pairs, others = line.keys()
            if len(others) != 1 or set(pairs) - {"like"}:
                line.fails(f"{kind} NAME [like=NAME], with its bytes below")
            font = self.font(line, pairs.get("like"))
            made = self.hex(font)
            self.keep(line, self.fonts, line.words[1], font)
            return f"{kind} {line.words[1]} {made}" if kind != "base" else None
        if kind == "pdf":
            return pdf.row(line, self)
        if kind in ROWS:
            return self.row(line)
        if kind == "text":
            return f"text {line.words[1]} {sfnt.fields.unquoted(line.words[2]).encode('ascii').hex()}"
        if kind not in PLAIN or line.children:
            line.fails(f"there is no row {kind}")
        return " ".join(coordinates(line, it) if kind == "coordinates" and "=" in it else it for it in line.words)


def compiled(entries, library):
    """The lines of today's file: of comments and empty lines those in front of the first row."""
    made, is_begun = [], False
    for entry in entries:
        is_begun = is_begun or not isinstance(entry, str)
        try:
            text = library.entry(entry) if not isinstance(entry, str) else None if is_begun else entry
        except (ArithmeticError, AttributeError, IndexError, KeyError, TypeError, ValueError) as error:
            entry.fails(f"{' '.join(entry.words[:2])} can't be compiled: {error!r}")
        if text is not None:
            made.append(text)
    return made
