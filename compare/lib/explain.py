"""Which of the intended differences between both programs (docs/DIFFERENCES.md) is in a font. CFF tables are read anew, by Technical Note 5176, and
charstrings run by a small machine of Technical Note 5177."""
import re
import struct

from fonts import directory, u16, u32

TOKENS_AT_MOST, STEMS_AT_MOST, OPERANDS_AT_MOST, DEPTH_AT_MOST = 1000000, 65535, 48, 64
# Operators of a dict; one of two bytes, 12 and k, is 1200 + k.
NOTICE, CHARSET, CHARSTRINGS, PRIVATE, SUBRS, COPYRIGHT, ROS, FDARRAY, FDSELECT, FONT_NAME = 1, 15, 17, 18, 19, 1200, 1230, 1236, 1237, 1238
# What reading a damaged table comes to.
UNREADABLE = (struct.error, LookupError, ValueError, TypeError, RecursionError)


class Index:
    """An INDEX: where it starts, where its offsets count from, and its offsets."""

    def __init__(self, cff, at):
        self.cff, self.start, self.count = cff, at, u16(cff, at)
        self.base, self.offsets, self.end = at + 2, [], at + 2
        if self.count == 0:
            return
        size = cff[at + 2]
        if not 1 <= size <= 4:
            raise ValueError("an offset size")
        self.base = at + 2 + (self.count + 1) * size
        self.offsets = [int.from_bytes(cff[it:it + size], "big") for it in range(at + 3, self.base + 1, size)]
        self.end = self.base + (self.offsets[-1] or 1)

    def range(self, k):
        """The first byte of an entry and the one after its last, or None where it can't be read."""
        if not 0 <= k < self.count or self.offsets[-1] == 0:
            return None
        first, last = self.offsets[k], self.offsets[k + 1]
        return (self.base + first, self.base + last) if 0 < first <= last <= self.offsets[-1] else None

    def item(self, k):
        place = self.range(k)
        return None if place is None else self.cff[place[0]:place[1]]

    def has_unreadable(self):
        return any(self.range(k) is None for k in range(self.count if self.offsets and self.offsets[-1] else 0))


def dict_entries(data):
    """The entries of a dict as (operator, operands): whole numbers, and the texts of reals."""
    at, operands = 0, []
    while at < len(data):
        first, at = data[at], at + 1
        if first <= 27 or first in (31, 255):
            if first == 12:
                first, at = 1200 + (data[at] if at < len(data) else 0), at + 1
            yield first, operands
            operands = []
        elif first in (28, 29):
            size = 2 if first == 28 else 4
            operands.append(int.from_bytes(data[at:at + size], "big", signed=True))
            at += size
        elif first == 30:
            end = next((k for k in range(at, len(data)) if 15 in (data[k] >> 4, data[k] & 15)), len(data) - 1) + 1
            operands.append(data[at:end].hex().partition("f")[0].translate(str.maketrans("abcde", ".EX?-")).replace("X", "E-"))
            at = end
        elif first <= 246:
            operands.append(first - 139)
        else:
            high = (first - 247) % 4 * 256 + (data[at] if at < len(data) else 0) + 108
            operands.append(high if first <= 250 else -high)
            at += 1
    if operands:
        yield -1, operands


def last(entries, operator):
    found = [operands for it, operands in entries if it == operator]
    return found[-1] if found else None


def is_plain(text):
    """Whether a real is the same as an f32 and as a decimal, and written alike: six digits at most, no great exponent."""
    if text in ("", "0"):
        return True
    parts = re.fullmatch(r"(-?)(\d*)(?:\.(\d*))?(?:E(-?\d{1,2}))?", text)
    if not parts or len(text) > 64:
        return False
    digits = ((parts[2] or "") + (parts[3] or "")).lstrip("0").rstrip("0")
    return bool(digits) and len(digits) <= 6 and abs(int(parts[4] or 0)) <= 30


class Table:
    """The parts of a CFF table that a subset of some glyphs reads. Whatever can't be read is left out."""

    def __init__(self, cff, glyphs):
        self.cff = cff
        self.names = Index(cff, cff[2])
        self.tops = Index(cff, self.names.end)
        self.strings = Index(cff, self.tops.end)
        self.subroutines = Index(cff, self.strings.end)
        self.top_range = self.tops.range(0)
        self.top = list(dict_entries(self.tops.item(0) or b""))
        self.charstrings = Index(cff, last(self.top, CHARSTRINGS)[0])
        self.is_keyed = last(self.top, ROS) is not None
        self.font_dicts = Index(cff, last(self.top, FDARRAY)[0]) if self.is_keyed else None
        self.select = last(self.top, FDSELECT)[0] if self.is_keyed else None
        self.privates, self.used = {}, {self.font_dict(glyph) for glyph in glyphs} - {None}
        for number in self.used:
            self.read_private(number)

    def entries(self, number):
        """The entries of a font dict; a SID-keyed font has those of its top dict."""
        return list(dict_entries(self.font_dicts.item(number) or b"")) if self.is_keyed else self.top

    def read_private(self, number):
        """The range of a private dict, its entries, and its local subroutines."""
        named = last(self.entries(number), PRIVATE)
        if named is None or len(named) != 2 or sum(named) > len(self.cff) or min(named) < 0:
            return
        length, start = named
        entries = list(dict_entries(self.cff[start:start + length]))
        local = next((operands for it, operands in entries if it == SUBRS), None)
        try:
            index = Index(self.cff, start + local[0]) if local else None
        except UNREADABLE:
            index = None
        self.privates[number] = (start, start + length), entries, index

    def font_dict(self, glyph):
        """The number of a glyph's font dict, or None where it has none."""
        if not self.is_keyed:
            return 0
        at = self.select
        if self.cff[at] == 0:
            return self.cff[at + 1 + glyph] if at + 1 + glyph < len(self.cff) else None
        ranges = range(at + 3, at + 3 + 3 * u16(self.cff, at + 1), 3)
        return next((self.cff[it + 2] for it in ranges if u16(self.cff, it) <= glyph < u16(self.cff, it + 3)), None)

    def all_subroutines(self):
        return [self.subroutines] + [local for _, _, local in self.privates.values() if local]


# ---- charstrings

class Fault(Exception):
    """Both programs refuse what is run, or one does."""


def charstring_number(code, at):
    """The number that begins here and its length, or None where an operator does."""
    first = code[at]
    if first == 28:
        return int.from_bytes(code[at + 1:at + 3], "big", signed=True), 3
    if first == 255:
        return int.from_bytes(code[at + 1:at + 5], "big", signed=True) / 65536, 5
    if first >= 247:
        high = (first - 247) % 4 * 256 + code[at + 1] + 108
        return (high if first <= 250 else -high), 2
    return (first - 139, 1) if first >= 32 else None


class Machine:
    """Runs a charstring, and notes what both programs take differently."""

    def __init__(self, table, glyph):
        self.shared, self.local = table.subroutines, table.privates.get(table.font_dict(glyph), (None,) * 3)[2]
        self.notes, self.stack, self.stems, self.mask, self.tokens = set(), [], 0, 0, 0
        try:
            self.go(table.charstrings.item(glyph) or b"", 1)
        except (Fault, IndexError):
            pass

    def need(self, it, note=None):
        if not it:
            self.notes |= {note} - {None}
            raise Fault

    def called(self, index):
        self.need(self.stack)
        value = self.stack.pop()
        self.need(value == int(value), "a call index with a fraction")
        self.need(index)
        found = index.item(int(value) + (107 if index.count < 1240 else 1131 if index.count < 33900 else 32768))
        self.need(found is not None)
        return found

    def count_stems(self):
        self.stems += len(self.stack) // 2
        self.need(self.stems <= STEMS_AT_MOST, "more than 65535 stems")

    def draw(self, first):
        """Takes an operator that neither calls nor ends, and returns the bytes after its first one."""
        more = int(first == 12)
        if first in (1, 3, 18, 23) or first in (19, 20) and not self.mask:
            self.count_stems()
        elif first in (19, 20) and self.stack:
            self.notes.add("operands at a mask after the first")
        if first in (19, 20):
            # (the stems give a mask's length when the first one with a byte comes)
            more = self.mask = self.mask or (self.stems + 7) // 8
        self.stack.clear()
        return more

    def go(self, code, depth):
        """Runs a charstring or a subroutine, and returns whether the run is finished."""
        self.need(depth <= DEPTH_AT_MOST)
        at = 0
        while at < len(code):
            self.tokens += 1
            self.need(self.tokens <= TOKENS_AT_MOST, "more than 1,000,000 tokens")
            first, number = code[at], charstring_number(code, at)
            at += number[1] if number else 1
            if number:
                self.stack.append(number[0])
                self.need(len(self.stack) <= OPERANDS_AT_MOST)
            elif first in (10, 29):
                if self.go(self.called(self.local if first == 10 else self.shared), depth + 1):
                    return True
            elif first in (11, 14):
                return first == 14
            else:
                at += self.draw(first)
            self.need(at <= len(code))
        return False


# ---- reasons

def note_dict(found, entries, name):
    """Notes what is in a dict."""
    for operator, operands in entries:
        if operator in (NOTICE, COPYRIGHT, FONT_NAME) and operands and isinstance(operands[-1], int) and 0 <= operands[-1] < 391:
            found.add(("a notice or name is a standard string", (name, operands[-1])))
        found.update(("a real isn't the same as an f32", (name, it)) for it in operands if isinstance(it, str) and not is_plain(it))


def note_table(found, cff, glyphs):
    """Notes what is in a CFF table, for the glyphs that are kept. Where a part can't be read, it ends."""
    names = Index(cff, cff[2])
    if names.count and names.end > len(cff):
        found.add(("the data of the Name INDEX is cut", ""))
    # (a dict ends before a real that can't be read, and so may have no charstrings)
    note_dict(found, dict_entries(Index(cff, names.end).item(0) or b""), "top")
    table = Table(cff, glyphs)
    for number in table.used:
        note_dict(found, table.entries(number) if table.is_keyed else [], number)
        note_dict(found, table.privates[number][1] if number in table.privates else [], ("private", number))
    if any(it.has_unreadable() for it in table.all_subroutines()):
        found.add(("a subroutine's entry is unreadable", ""))
    for glyph in glyphs:
        found.update((note, glyph) for note in Machine(table, glyph).notes)


def note_post(found, post):
    """Notes an empty name among those of `post`."""
    at = 34 + 2 * u16(post, 32) if u32(post, 0) == 0x00020000 else len(post)
    while at < len(post):
        if post[at] == 0:
            found.add(("a name of post is empty", at))
        at += 1 + post[at]


def note_name(found, name):
    """Notes a string of `name` that ends past byte 65535."""
    for at in range(6, 6 + 12 * u16(name, 2) if u16(name, 0) == 0 else 0, 12):
        if u16(name, 4) + u16(name, at + 8) + u16(name, at + 10) > 65535:
            found.add(("a string of name ends past 65535", at))


def note_directory(found, data, index):
    """Notes what is in the directory."""
    at = u32(data, 12 + 4 * index) if data[:4] == b"ttcf" else 0
    tags = [data[r:r + 4] for r in range(at + 12, at + 12 + 16 * u16(data, at + 4), 16) if r + 16 <= len(data)]
    if any(one >= two for one, two in zip(tags, tags[1:])):
        # (the original searches them by halves, the port takes the first)
        found.add(("the records don't ascend by tag", ""))
    tables = directory(data, index)
    if "hhea" in tables and tables["hhea"][1] != 36:
        # (the original reads a short one at 0 and patches a long one at its end)
        found.add(("hhea isn't 36 bytes", ""))


def reasons(data, index, glyphs):
    """The intended differences that are in a font, each with what it is seen by."""
    def body(tag):
        start, length = directory(data, index)[tag]
        return data[start:start + length]

    found = set()
    for note in (lambda: note_directory(found, data, index), lambda: note_post(found, body("post")), lambda: note_name(found, body("name")),
                 lambda: "glyf" in directory(data, index) or note_table(found, body("CFF "), glyphs)):
        try:
            note()
        except UNREADABLE:
            # (where a part can't be read, what is left of it says nothing)
            pass
    return found


# ---- mending

def mended_directory(data, index):
    """The same font with the records of a face in the order of their tags, each tag once, and 36 bytes of `hhea`."""
    start = u32(data, 12 + 4 * index) if data[:4] == b"ttcf" else 0
    count, records = u16(data, start + 4), {}
    first, last = start + 12, start + 12 + 16 * count
    for at in range(first, last, 16):
        record = data[at:at + 16]
        if record[:4] == b"hhea":
            record = record[:12] + (36).to_bytes(4, "big")
        records.setdefault(record[:4], record)
    front = b"".join(records[tag] for tag in sorted(records))
    return data[:start + 4] + len(records).to_bytes(2, "big") + data[start + 6:first] + front + bytes(16 * count - len(front)) + data[last:]


def mend_offsets(copy, start, index):
    """Raises the offsets of an INDEX of a table so that each entry can be read."""
    if index.count == 0 or index.offsets[-1] == 0:
        return
    size, least = index.cff[index.start + 2], 1
    for k, offset in enumerate(index.offsets):
        least, at = min(max(offset, least), index.offsets[-1]), start + index.start + 3 + k * size
        copy[at:at + size] = least.to_bytes(size, "big")


def mended(data, glyphs, index=0):
    """The same font with what can be mended of the differences: its directory, `hhea`, and the offsets of subroutines."""
    copy = bytearray(data)
    try:
        copy = bytearray(mended_directory(data, index))
        start, length = directory(copy, index)["CFF "]
        table = Table(bytes(copy[start:start + length]), glyphs)
        for each in table.all_subroutines():
            mend_offsets(copy, start, each)
    except UNREADABLE:
        pass
    return bytes(copy)
