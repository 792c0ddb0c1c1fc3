"""Fonts: tables and their directory, and what a font changes of another one."""
import re
import struct

import cff
import fields
from reading import Line

ROUNDS = 8
VERSIONS = {"TrueType": b"\0\1\0\0", "CFF": b"OTTO"}
HEAD_ADJUSTMENT = 8


def contents(line, labels, formats):
    """The bytes of one line of a table, with what is below it."""
    word = line.words[0]
    if word in ("INDEX", "each", "item", "DICT"):
        return nested(line, labels, formats)
    if line.children:
        line.fails(f"nothing can be below {word}")
    if fields.is_type(word):
        return fields.fields(line, labels, formats)
    if word in formats.structs:
        return fields.struct(line, labels, formats)
    if word in ("text", "utf16", "pascal", "hex"):
        return fields.texts(line)
    if word in fields.RUNS:
        return fields.packed(line, labels, formats)
    if word == "rectangle":
        return fields.rectangle(line)
    if word == "filler":
        return fields.filler(line)
    if word == "charstring":
        return cff.charstring(line, labels, formats)
    return line.fails(f"there is no type or structure {word}")


def nested(line, labels, formats):
    if line.words[0] == "DICT":
        return cff.dictionary(line, labels, formats)
    if line.words[0] == "INDEX":
        return cff.index(line, items(line, labels, formats))
    return b"".join((repetitions if line.words[0] == "each" else items)(line, labels, formats))


def items(line, labels, formats):
    """The objects below a line: each line is one, and those below `each A..B` are there for each number, which `$` is."""
    found = []
    for child in line.children:
        found += repetitions(child, labels, formats) if child.words[0] == "each" else [contents(child, labels, formats)]
    return found


def repetitions(line, labels, formats):
    """The objects below a line `each A..B`."""
    values = numbers(line)
    if filled(line, "").same(line):
        return items(line, labels, formats) * len(values)
    return [it for value in values for it in items(filled(line, str(value)), labels, formats)]


def numbers(line):
    """The numbers of a line `each A..B`."""
    found = re.fullmatch(r"(-?\d+)\.\.(-?\d+)", " ".join(line.words[1:]))
    if not found or int(found[1]) > int(found[2]):
        line.fails("each A..B")
    return range(int(found[1]), int(found[2]) + 1)


def filled(line, value):
    """A line with a value in the place of each `$`, and so what is below it."""
    made = Line([it.replace("$", value) for it in line.words], line.where)
    made.children = [filled(it, value) for it in line.children]
    return made


def behind(line, count):
    """A line without its first words, with what is below it."""
    made = Line(line.words[count:], line.where)
    made.children = line.children
    return made


class Table:
    """A table: its tag, its lines, and the fields of its record that aren't those of its bytes."""

    def __init__(self, tag, lines):
        self.tag, self.lines, self.made = tag, lines, None

    def record(self):
        lines = [it for it in self.lines if it.words[0] == "record"]
        return {key: int(value, 0) for it in lines for key, value in it.keys()[0].items()}

    def bytes(self, formats):
        """Its bytes (fonts that change another one share its tables)."""
        if self.made is None:
            self.made = self.rounds(formats)
        return self.made

    def rounds(self, formats):
        """Its bytes, in as many rounds as its labels need to stay."""
        labels = fields.Labels()
        for _ in range(ROUNDS):
            data = b""
            for line in self.lines:
                word = line.words[0]
                if word == "at":
                    labels.new[line.words[1]] = len(data)
                    data += contents(behind(line, 2), labels, formats) if len(line.words) > 2 else b""
                elif word == "cut":
                    data = cut(line, data, line.words[1])
                elif word != "record":
                    data += contents(line, labels, formats)
            if labels.new == labels.last:
                return data
            labels.last, labels.new = labels.new, {}
        return self.lines[0].fails("its labels never stay")

    def part(self, line):
        """Replaces the lines between a label and the next one."""
        name = line.words[1].rpartition(".")[2]
        begin = [it for it, found in enumerate(self.lines) if found.words[:2] == ["at", name]]
        if len(begin) != 1:
            line.fails(f"the table has no part {name}")
        end = begin[0] + 1
        while end < len(self.lines) and self.lines[end].words[0] not in ("at", "cut"):
            end += 1
        label = Line(["at", name, *line.words[2:]], line.where)
        if line.words[2:]:
            label.children = line.children
        return Table(self.tag, self.lines[:begin[0]] + [label] + ([] if line.words[2:] else line.children) + self.lines[end:])

    def entry(self, line):
        """Gives the DICT of a part another entry: in the place of the one of its operator, or a further one, `after=` or `before=` another."""
        name, (pairs, words) = line.words[1].rpartition(".")[2], line.keys(line.words[2:])
        [at] = [it for it, found in enumerate(self.lines) if found.words[:2] == ["at", name]]
        whole, part = Line(self.lines[at].words, line.where), self.lines[at]
        if part.words[2] == "INDEX":
            [part] = part.children
        other = pairs.get("after") or pairs.get("before") or words[0]
        [place] = [it for it, found in enumerate(part.children) if found.words[0] == other]
        made, old = Line(words, line.where), part.children[place]
        entries = part.children[:place] + ([old, made] if "after" in pairs else [made, old] if pairs else [made]) + part.children[place + 1:]
        whole.children = entries
        if part is not self.lines[at]:
            whole.children = [Line(["DICT"], line.where)]
            whole.children[0].children = entries
        return Table(self.tag, self.lines[:at] + [whole] + self.lines[at + 1:])

    def set(self, line, formats):
        """Gives fields of the table's first structure other values."""
        at = next((it for it, found in enumerate(self.lines) if found.words[0] in formats.structs), None)
        if at is None:
            line.fails("the table has no structure")
        old, (new, others) = self.lines[at], line.keys(line.words[2:])
        if others or not new:
            line.fails("set TABLE FIELD=VALUE..")
        made = Line([it for it in old.words if it.partition("=")[0] not in new] + [f"{key}={value}" for key, value in new.items()], line.where)
        return Table(self.tag, self.lines[:at] + [made] + self.lines[at + 1:])


def cut(line, data, count):
    if not count.isdigit() or int(count) >= len(data):
        line.fails(f"there aren't more than {count} bytes to cut")
    return data[:int(count)]


def patched(line, data):
    """The file with other bytes at a place: `patch OFFSET HEX`."""
    at, new = int(line.words[1]), bytes.fromhex(line.words[2])
    return data[:at] + new + data[at + len(new):]


class Font:
    """Tables in a file, or (with a version of None) one list of fields. `faces` are the fonts of a collection."""

    def __init__(self, like=None):
        self.version, self.options, self.tables, self.faces, self.changes = None, {}, [], None, []
        self.is_changed = like is not None
        if like:
            self.version, self.options, self.faces = like.version, dict(like.options), like.faces
            self.tables, self.changes = list(like.tables), list(like.changes)

    def find(self, line, tag):
        tag = fields.unquoted(tag).ljust(4) if tag else ""
        found = [it for it, table in enumerate(self.tables) if table.tag == tag]
        if not found:
            line.fails(f"the font has no table {tag}")
        return found[0]

    def put(self, table):
        """A further table; in a font that changes another one it replaces the one of its tag, or goes in front of those of greater tags."""
        if not self.is_changed:
            self.tables.append(table)
            return
        tags = [it.tag for it in self.tables]
        if table.tag in tags:
            self.tables[tags.index(table.tag)] = table
        else:
            self.tables.insert(sum(it < table.tag for it in tags), table)

    def search(self):
        """numTables, searchRange, entrySelector and rangeShift."""
        count = self.options.get("numTables", len(self.tables))
        if "search" in self.options:
            return [count, *self.options["search"]]
        selector = max(count.bit_length() - 1, 0)
        return [count, 16 << selector, selector, 16 * count - (16 << selector)]

    def bytes(self, formats, front=0):
        """The file, or what it is from `front` on in a collection."""
        if self.faces is not None:
            data = self.collection(formats)
        elif self.version is None:
            data = b"".join(it.bytes(formats) for it in self.tables)
        else:
            data = self.file(formats, front)
        for line in self.changes:
            data = patched(line, data) if line.words[0] == "patch" else cut(line, data, line.words[1])
        return data

    def collection(self, formats):
        at, places, data = 12 + 4 * len(self.faces), {}, b""
        for face in self.faces:
            if id(face) not in places:
                places[id(face)] = at + len(data)
                data += face.bytes(formats, at + len(data))
        offsets = [places[id(it)] for it in self.faces]
        return b"ttcf\0\1\0\0" + b"".join(it.to_bytes(4, "big") for it in (len(offsets), *offsets)) + data

    def file(self, formats, front):
        at = 12 + 16 * len(self.tables)
        records, data, order = {}, b"", self.options.get("order", [])
        ordered = sorted(self.tables, key=lambda it: order.index(it.tag) if it.tag in order else len(order))
        for table in ordered:
            made, given = table.bytes(formats), table.record()
            checksum = checksum_of(table.tag, made) if "checksums" in self.options else 0
            numbers = (given.get("checksum", checksum), given.get("offset", front + at + len(data)), given.get("length", len(made)))
            records[id(table)] = table.tag.encode("ascii") + b"".join(it.to_bytes(4, "big") for it in numbers)
            is_padded = "packed" not in self.options and (table is not ordered[-1] or self.options.keys() & {"checksums", "padded"})
            data += made + bytes(-len(made) % 4 if is_padded else 0)
        records = b"".join(records[id(it)] for it in self.tables)
        whole = self.version + b"".join(it.to_bytes(2, "big") for it in self.search()) + records + data
        return adjusted(whole, records) if "checksums" in self.options and not front else whole


def sum_of(data):
    data += bytes(-len(data) % 4)
    return sum(struct.unpack(f">{len(data) // 4}I", data)) & 0xffffffff


def without_adjustment(data):
    return data[:HEAD_ADJUSTMENT] + bytes(4) + data[HEAD_ADJUSTMENT + 4:]


def checksum_of(tag, data):
    return sum_of(without_adjustment(data) if tag == "head" and len(data) >= 12 else data)


def adjusted(whole, records):
    """The file with the checksumAdjustment of `head`."""
    for at in range(0, len(records), 16):
        if records[at:at + 4] == b"head":
            begin = int.from_bytes(records[at + 8:at + 12], "big")
            whole = whole[:begin] + without_adjustment(whole[begin:])
            value = (0xB1B0AFBA - sum_of(whole)) & 0xffffffff
            return whole[:begin + HEAD_ADJUSTMENT] + value.to_bytes(4, "big") + whole[begin + HEAD_ADJUSTMENT + 4:]
    return whole
