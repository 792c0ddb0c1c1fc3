"""What the tests in Python share: paths, fonts of tests/data/rows, examples of documents, the program and its rows."""
import contextlib
import errno
import functools
import importlib.machinery
import importlib.util
import os
import pathlib
import re
import shlex
import shutil
import signal
import struct
import subprocess
import sys
from dataclasses import dataclass, field

sys.dont_write_bytecode = True
ROOT = pathlib.Path(__file__).resolve().parent.parent
DATA = ROOT / "tests" / "data"
# The program: SUBSET_FONT is a file, or a command that runs one of another system, which is s390x or windows then.
COMMAND = shlex.split(os.environ.get("SUBSET_FONT", str(ROOT / "out" / "cargo" / "release" / "subset_font")))
COMMAND[-1] = os.path.realpath(COMMAND[-1])
SYSTEM = os.environ.get("SUBSET_FONT_SYSTEM")
# Whether it is the build by Cargo, which has `--jobs` and Rust's library below it.
IS_CARGO = not COMMAND[-1].endswith("crates/subset_font/out/subset_font")
USAGE = "usage: subset_font IN OUT INDEX GID[,GID..]"
OLD = b"what was there before"
# Windows' numbers of the reasons that rows have by Unix's: no such file or folder, access to a folder as a file, a full disk.
WINDOWS_NUMBERS = {errno.ENOENT: (2, 3), errno.EISDIR: (5,), errno.ENOSPC: (112,)}


# ---- fonts

@functools.lru_cache(maxsize=None)
def compiler():
    """tests/data/compile as a module, and the fonts of tests/data/rows/fonts."""
    loader = importlib.machinery.SourceFileLoader("compile", str(DATA / "compile"))
    module = importlib.util.module_from_spec(importlib.util.spec_from_loader("compile", loader))
    loader.exec_module(module)
    return module, module.fonts()


@functools.lru_cache(maxsize=None)
def fonts():
    """The fonts of tests/data/rows/fonts, by their names."""
    library = compiler()[1]
    return {name: it.bytes(library.formats) for name, it in library.fonts.items()}


def font(text, like=None):
    """A font in the language of the rows (tests/data/README.md), or what that changes of one of them."""
    (module, library), lines = compiler(), [it for it in text.strip("\n").split("\n") if it.strip()]
    entry = module.reading.parsed(["font made", *lines], "a test")[0]
    return library.font(entry, like).bytes(library.formats)


def tables_of(data):
    """The tables of a font, by their tags."""
    records = [struct.unpack(">4sIII", data[12 + 16 * k:28 + 16 * k]) for k in range(int.from_bytes(data[4:6], "big"))]
    return {tag.decode(): data[at:at + length] for tag, _, at, length in records}


def sum_of(data):
    data += bytes(-len(data) % 4)
    return sum(struct.unpack(f">{len(data) // 4}I", data)) % (1 << 32)


def is_whole(data):
    """Whether a font ends with its last table, and its checksums are right."""
    records = [struct.unpack(">4sIII", data[12 + 16 * k:28 + 16 * k]) for k in range(int.from_bytes(data[4:6], "big"))]
    end = max((at + length for _, _, at, length in records), default=0)
    sums = [wanted == sum_of(data[at:at + length]) for tag, wanted, at, length in records if tag != b"head"]
    return len(data) == end + -end % 4 and all(sums) and (len(sums) == len(records) or sum_of(data) == 0xB1B0AFBA)


# ---- files and runs

def blocks(text, language):
    """The examples of a document in a language."""
    found = re.findall(rf"^```{language}(?:,\S*)?\n(.*?)^```$", text, re.M | re.S)
    assert found, f"no example in {language}"
    return found


def read(path):
    """The bytes of a file; of a link, a folder or nothing that it is one, or None."""
    if os.path.islink(path):
        return b"(a link)"
    return b"(a folder)" if os.path.isdir(path) else pathlib.Path(path).read_bytes() if os.path.exists(path) else None


def remove(*paths):
    for path in paths:
        with contextlib.suppress(FileNotFoundError):
            os.unlink(path)


def reason(name):
    """The system's reason for a name of errno, as the program prints it."""
    return f"{os.strerror(getattr(errno, name))} (os error {getattr(errno, name)})"


def cannot(what, name, error):
    """The message where a file can't be read or written."""
    return f"cannot {what} {name}\n{reason(error)}\n".encode()


def glyph_lines(*pairs):
    """The lines of glyphs, each by its old and its new number."""
    return b"".join(b"%d -> %d\n" % it for it in pairs)


def run(words, room, command=COMMAND, **given):
    """How the program ends: status, standard output and standard error."""
    given = {"capture_output": True, "timeout": 1800 if SYSTEM else 600, **({} if "input" in given or "stdin" in given else {"stdin": subprocess.DEVNULL}), **given}
    for _ in range(2 if SYSTEM == "windows" else 1):
        got = subprocess.run([*command, *words], cwd=room, check=False, **given)
        # (wine, where it can't start a program, says nothing; the program always says why it ends with 1)
        if (got.returncode, got.stdout, got.stderr) != (1, b"", b""):
            break
    return got.returncode, got.stdout, got.stderr


def few_bytes():
    """In a process that is begun: files may have 100 bytes."""
    import resource
    signal.signal(signal.SIGXFSZ, signal.SIG_IGN)
    resource.setrlimit(resource.RLIMIT_FSIZE, (100, 100))


def library(name, source, room):
    """A library of C that is loaded before the system's."""
    path = os.path.join(room, f"{name}.so")
    subprocess.run([shutil.which("cc") or "gcc", "-O1", "-shared", "-fPIC", "-o", path, source, "-ldl"], check=True)
    return path


# ---- rows of the program (tests/data/program/README.md)

ESCAPE = re.compile(r"\\(?:([nrt\"\\])|x([0-9a-f]{2})|u([0-9a-f]{4})|U([0-9a-f]{8}))")
PLAIN = {"n": "\n", "r": "\r", "t": "\t"}
WORD = re.compile(r'"((?:[^"\\]|\\.)*)"(?= |$)|[^ "]\S*')


def unescaped(text):
    """The bytes of what is in double quotes."""
    def character(found):
        plain, byte, *number = found.groups()
        if plain:
            return PLAIN.get(plain, plain)
        return bytes([int(byte, 16)]).decode("utf-8", "surrogateescape") if byte else chr(int(next(filter(None, number)), 16))
    return ESCAPE.sub(character, text).encode("utf-8", "surrogateescape")


def quoted(text):
    """The bytes of a text, which may be in double quotes."""
    return unescaped(text[1:-1]) if len(text) > 1 and text[0] == text[-1] == '"' else text.encode()


def words_of(line):
    """The words of a line, divided by one blank: texts, or bytes where they are none."""
    found = [unescaped(it[1]) if it[1] is not None else it[0].encode() for it in WORD.finditer(line)]
    return [it.decode() if it.decode(errors="replace").encode() == it else it for it in found]


@dataclass
class Row:
    """A run of the program: what it is given, and how it has to end."""
    where: str
    line: str
    status: int = 0
    out: bytes = b""
    # lines of standard error; after those of a wrong argument there is one more, which isn't compared where the row doesn't have it
    err: bytes = b""
    has_more: bool = False
    out_font: str = ""
    stdin: bytes = b""
    files: dict = field(default_factory=dict)
    after: dict = field(default_factory=dict)
    # of a PDF: its layout, codes, encoding and text, and the run whose OUT is its font program
    pdf: tuple = ()
    program: list = field(default_factory=list)

    @property
    def words(self):
        return words_of(self.line)


def content(text):
    """Bytes: `font NAME`, a text in double quotes, or `N times` such a text."""
    kind, _, name = text.partition(" ")
    if kind == "font":
        return fonts()[name]
    times = re.match(r"(\d+) times ", text)
    return quoted(text[times.end():]) * int(times[1]) if times else quoted(text)


def lines_of(text):
    """Lines that are divided by ` | `; `@NAME@` is the size of a font, or the system's reason."""
    def known(found):
        name = found[1].decode()
        return b"%d" % len(fonts()[name]) if name in fonts() else reason(name).encode() if hasattr(errno, name) else found[0]
    return re.sub(rb"@(\w+)@", known, b"".join(it + b"\n" for it in quoted(text).split(b" | ")))


def add(row, key, text):
    """Adds an indented line to a row."""
    name, _, rest = text.partition(" ")
    if key.isdigit():
        row.status, row.err = int(key), lines_of(text) if text else b""
    elif key == "usage":
        row.status, row.err = 2, USAGE.encode() + b"\n" + lines_of(text)
        row.has_more = row.err.count(b"\n") == 2
    elif key == "stdout":
        row.out += lines_of(text)
    elif key == "stdout-font":
        row.out_font = text
    elif key == "stdin":
        row.stdin = content(text)
    elif key == "line":
        row.files[name] = row.files.get(name, b"") + quoted(rest) + b"\n"
    elif key == "file":
        row.files[name] = content(rest)
    elif key == "after":
        row.after[name] = rest
    elif key == "pdf":
        layout, codes, encoding, *more = text.split(" ", 3)
        row.pdf = layout, [int(it) for it in codes.split(",")], encoding, quoted("".join(more)).decode()
    elif key == "program":
        row.program = words_of(text)
    else:
        raise ValueError(f"{row.where}: there is no part {key}")


def rows(path):
    """The rows of a file."""
    found, parts = [], []
    for number, line in enumerate(path.read_text(encoding="ascii").split("\n"), 1):
        if line.startswith("subset_font"):
            found.append(Row(f"{path.name}:{number}", line.partition(" ")[2]))
            parts.append([])
        elif line.startswith("    .. "):
            parts[-1][-1] += line[7:].lstrip()
        elif line.startswith("    "):
            parts[-1].append(line[4:])
        elif line and not line.startswith("#"):
            raise ValueError(f"{path.name}:{number}: neither a row, a part of one, nor a comment")
    for at in range(len(parts) - 1, 0, -1):
        parts[at - 1] = parts[at - 1] or parts[at]
    for row, texts in zip(found, parts):
        for text in texts:
            add(row, *text.partition(" ")[::2])
    return found


def row_files():
    return sorted((DATA / "program").glob("*.txt"))
