"""The cases of pdf_font.py: a font, random characters, texts, coordinates and options."""
import os
import struct

import fonts
import pdf_rules as rules
from pdf_file import FIRST

CHARACTERS = 40
# What the options of a case are for `pdf_font`.
CHOICES = {"Source": {"codes": "source"}, "EachText": {"codes": "each_text"}, "Held": {"rights": "held"}, "CIDSet": {"cid_set": True}, "Kept": {"bounds": "kept"},
           "unhinted": {"hinting": False}, "Vertical": {"vertical": True}, "QWERTY": {"tag": "QWERTY"}, "OpenType": {"program": "opentype"}}


class Case:
    """A font with coordinates, options and entries, and the folder of its answer."""

    def __init__(self, name, data, index, rng, folder, is_seen):
        self.name, self.data, self.index, self.folder, self.is_seen = name, data, index, folder, is_seen
        self.coordinates = coordinates_of(rules.Source(data, index), rng)
        self.source = rules.Source(data, index, self.coordinates)
        self.characters = self.source.cmap() if "cmap" in self.source.tables else {}
        self.shown = entries(self.characters, rng)
        self.options = options_of(self.source, rng)
        os.makedirs(folder)

    def has(self, option):
        return option in self.options

    @property
    def is_vertical(self):
        return self.has("Vertical")

    @property
    def codes(self):
        return rules.codes(self.shown, next((it for it in ("Source", "EachText") if self.has(it)), "Consecutive"))

    def file(self, name):
        return os.path.join(self.folder, name)

    def make(self, calls):
        """What `embed` and `pdf_font` answer, and the files of the font."""
        at, text = dict(self.coordinates), "".join(text for _, text in self.shown)
        self.embedded = calls.answer("embed", self.data, [glyph for glyph, _ in self.shown], self.index, coordinates=at, hinting=not self.has("unhinted"), names=False, glyph_names=False)
        self.found = calls.answer("glyphs_of", self.data, text, self.index)
        made = calls.answer("pdf_font", self.data, self.shown, self.index, coordinates=at, **{word: value for option in self.options for word, value in CHOICES[option].items()})
        if not isinstance(made, str):
            self.offsets = made.objects(FIRST).offsets
            for name, data in (("line.pdf", made.sheet()), ("grid.pdf", made.sheet("grid")), ("objects", made.objects(FIRST).bytes)):
                fonts.put(self.file(name), data)
        return made


def coordinates_of(source, rng):
    """Coordinates of a variable font, of which some are clamped, and some are its default."""
    if not source.axes or source.is_cff or rng.random() < 0.2:
        return []
    found = []
    for tag, low, default, high in source.axes:
        value = rng.choice([default, high, high + 65536 * 50, rng.randint(low, high), rng.randint(low // 65536, high // 65536) * 65536])
        found.append((tag, struct.unpack("<f", struct.pack("<f", value / 65536))[0]))
    return [it for it in found if rng.random() < 0.8]


def entries(characters, rng):
    """Entries of random characters, of which some are repeated, have a further text, or several characters or none."""
    plain = sorted(it for it in characters if characters[it] and rules.is_plain(it))
    if not plain:
        return []
    shown = [(characters[it], chr(it)) for it in rng.sample(plain, min(len(plain), CHARACTERS))]
    kind = rng.random()
    if kind < 0.3:
        glyph, text = shown[0]
        shown += [(glyph, text), (glyph, chr(rng.choice(plain)))]
    if kind < 0.6:
        glyph, _ = shown.pop()
        shown.append((glyph, "".join(chr(rng.choice(plain)) for _ in range(rng.choice((2, 3, 4))))))
    if kind < 0.1:
        shown.append((shown[-1][0], ""))
    return shown


def options_of(source, rng):
    found = [rng.choice(("Consecutive", "Source", "EachText")), rng.choice(("Held", "AsSaid"))]
    found += ["CIDSet"] * (rng.random() < 0.9) + ["Kept"] * (rng.random() < 0.2) + ["unhinted"] * (rng.random() < 0.5)
    found += ["Vertical"] * (rng.random() < (0.5 if "vmtx" in source.tables else 0.1)) + ["QWERTY"] * (rng.random() < 0.1)
    found += ["OpenType"] * (source.is_cff and rng.random() < 0.1)
    return [it for it in found if it not in ("Consecutive", "AsSaid")]
