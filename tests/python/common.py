"""What the tests of the Python module share: worked rows, fonts, and programs that run in a Python of their own."""

import os
import re
import subprocess
import sys
import textwrap
from pathlib import Path
from typing import NamedTuple

HERE = Path(__file__).resolve().parent
ROOT = HERE.parents[1]
MODULE = ROOT / "bindings/python"
DATA = ROOT / "crates/dev_rows/data"

ERRORS = {1: "UnknownKind", 2: "MalformedFont", 3: "Unimplemented", 4: "SubsetError", 5: "OverflowError", 6: "CFFError", 7: "OutOfMemory",
          11: "NotPermitted", 12: "InvalidText", 13: "NoCmap", 14: "BitmapsAlone", 15: "Overfull"}
# What a kind of row has between its glyphs and its status.
FIELDS = {"": [], "limits": ["tokens", "depth"], "options": ["tokens", "depth", "drop"],
          "bounded_options": ["tokens", "depth", "drop", "most_bytes"], "at": ["coordinates", "tokens", "depth", "drop", "most_bytes"]}
DROPS = {1: "hinting", 2: "names", 4: "glyph_names"}


class Row(NamedTuple):
    """A call, and what it has to return: bytes, the parts of an `Embedded`, or the name and the text of an error."""

    name: str
    call: str
    font: bytes
    glyphs: list
    index: int
    choices: dict
    wanted: object


def numbers(word):
    ends = [part.split("..") for part in word.split(",") if part != "-"]
    return [number for it in ends for number in range(int(it[0]), int(it[-1]) + 1)]


def hexadecimal(word):
    return bytes.fromhex(word.replace("-", ""))


def choices_of(kind, words):
    """The keywords of a row. None for a row that they can't say: a tag twice, or an unknown bit."""
    fields = dict(zip(FIELDS[kind], words))
    found = {}
    if "coordinates" in fields:
        pairs = [(part[:4], int(part[5:]) / 65536) for part in fields.pop("coordinates").split(",") if part != "-"]
        found["coordinates"] = dict(pairs)
        if len(found["coordinates"]) < len(pairs):
            return None
    drop = int(fields.pop("drop", 0))
    if drop > 7 or int(fields.get("depth", 0)) > 255:
        return None
    found.update({"small": True} if drop == 7 else {name: False for bit, name in DROPS.items() if drop & bit})
    # (0 is the default, but not where the row is one of limits)
    found.update({name: int(word) for name, word in fields.items() if kind == "limits" or word != "0"})
    return found


def read_rows():
    """The rows that the module can say, the fonts by name, and the texts of the statuses."""
    lines = [line.split() for line in (DATA / "subset.txt").read_text().splitlines() if line and line[0] != "#"]
    fonts = {name: hexadecimal(word) for kind, name, word, *_ in lines if kind == "font"}
    texts = {int(status): hexadecimal(word).decode() for kind, status, word, *_ in lines if kind == "text"}
    rows = []
    for kind, name, font, index, glyphs, *words in (it for it in lines if it[0] not in ("font", "text")):
        call, kind = ("embed" if kind.startswith("embed") else "subset"), re.sub("^(subset|embed)_?", "", kind)
        choices = choices_of(kind, words)
        status, made, *lists = words[len(FIELDS[kind]):]
        wanted = (ERRORS[int(status)], texts[int(status)]) if 0 < int(status) < 8 else hexadecimal(made)
        if status == "0" and call == "embed":
            wanted = (wanted, *map(numbers, lists))
        if choices is not None:
            rows.append(Row(name, call, fonts[font], numbers(glyphs), int(index), choices, wanted))
    return rows, fonts, texts


def rows_of(name):
    """The words of each row of a table, with `{x*3}` as xxx."""
    text = re.sub(r"{(.*?)\*(\d+)}", lambda it: it[1] * int(it[2]), made(f"{name}.txt").decode())
    return [line.split(" ") for line in text.splitlines() if line and line[0] != "#"]


def pdf_rows():
    """The rows for PDF as dicts of fields; `object` has a list of them."""
    rows, row = [], {}
    for line in (DATA / "pdf.txt").read_text().split("\n"):
        name, _, value = line.replace("~", "\n").partition(" ")
        if not line and row:
            rows.append(row)
            row = {}
        elif name == "object":
            row.setdefault("object", []).append(value.partition(" ")[2])
        elif line and line[0] != "#":
            row[name] = value
    return rows


def made(name):
    """A font of the rows for PDF; the crate's package has those of TrueType."""
    return ((ROOT / "bindings/rust/tests/data" if name.endswith("ttf") else DATA) / name).read_bytes()


def changed(name, change):
    """A made font with other bytes in a table (`OS/2+8=0002`), or with another tag (`glyf=sbix`)."""
    font, (place, _, new) = bytearray(made(name)), change.partition("=")
    at, new = font.index(place[:4].encode()) if new else 0, bytes.fromhex(new) if "+" in place else new.encode()
    at = int.from_bytes(font[at + 8:at + 12], "big") + int(place[5:]) if "+" in place else at
    font[at:at + len(new)] = new
    return font


def examples():
    """The examples of the module's README and docstring."""
    from support import blocks
    found = [it for it in blocks((MODULE / "README.md").read_text(), "python") if it.startswith("import ")]
    docstring = (MODULE / "subsetter/__init__.py").read_text().split('"""')[1]
    return found + [textwrap.dedent(it) for it in re.findall(r"(?<=\n\n)(?:    .*\n)+", docstring)]


def raised(call, *arguments, **choices):
    """The exception of a call, or None."""
    try:
        call(*arguments, **choices)
    except Exception as error:
        return error
    return None


def run(*words, folder=None, **env):
    """A program's status and output; of the environment only what is named here reaches the module."""
    taken = ("LD_LIBRARY_PATH", "LD_PRELOAD", "PYTHONPATH", "SUBSETTER_LIBRARY", "RUSTFLAGS")
    known = {name: value for name, value in os.environ.items() if name not in taken}
    env = {**known, "PYTHONDONTWRITEBYTECODE": "1", "PIP_DISABLE_PIP_VERSION_CHECK": "1", **env}
    return subprocess.run([str(it) for it in words], cwd=folder, env={name: str(value) for name, value in env.items()},
                          stdin=subprocess.DEVNULL, stdout=subprocess.PIPE, stderr=subprocess.STDOUT, text=True, timeout=3600)


def child(program, path=MODULE, folder="/", **env):
    """What a program prints in a Python of its own, which finds programs.py, with its status after it where that isn't 0."""
    env = {"SUBSETTER_LIBRARY": os.environ["SUBSETTER_LIBRARY"], **env}
    ran = run(sys.executable, "-c", textwrap.dedent(program), folder=folder, PYTHONPATH=f"{path}:{HERE}", **env)
    return ran.stdout + (f"status {ran.returncode}" if ran.returncode else "")
