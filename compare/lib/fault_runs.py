"""Runs of a program under strace, where system calls fail: for faults.py."""
import errno
import os
import re
import stat
import subprocess
from dataclasses import dataclass, field

import build
import fonts
import made

CANARY = build.Canary()
LINE = re.compile(r"(\w+)\((.*)\)\s+= (-?\d+|\?|0x[0-9a-f]+)(.*)")
# The calls whose texts are names of files.
NAMING = re.compile(r"(open|stat|lstat|newfstatat|statx|access|faccessat|rename|link|unlink|symlink|readlink|chmod|fchmodat|truncate)")
# (so that each run makes the same calls)
STRACE = ["setarch", "-R", "strace", "-qq", "-y", "-s", "1"]


class Trouble(Exception):
    """What keeps a run from being looked at."""


@dataclass
class Step:
    """A system call: its name, its arguments as strace writes them, what it gave (None where it didn't come back), and the files that it names."""
    call: str
    arguments: str
    gave: int
    names: list


@dataclass
class File:
    """A file of the folder: its bytes, its rights, and how many names it has. A link has the target's name in front."""
    data: bytes
    mode: int
    names: int = 1


@dataclass
class Ended:
    """How a run ended: its status or the signal that ended it, what it printed, the files of its folder, and its system calls."""
    status: int
    signal: int
    out: bytes
    err: bytes
    files: dict
    steps: list = field(default_factory=list)

    def __str__(self):
        files = {name: (len(it.data), it.data[:12], oct(it.mode)) for name, it in self.files.items()}
        return f"{f'status {self.status}' if self.signal is None else f'signal {self.signal}'}, {self.out[:40]!r}, {self.err[:160]!r}, files {files}"


def file_of(path):
    about = os.lstat(path)
    if stat.S_ISLNK(about.st_mode):
        return File(f"link to {os.readlink(path)}".encode(), 0)
    return File(fonts.content(path), stat.S_IMODE(about.st_mode), about.st_nlink)


class Room:
    """A folder for runs: `work`, in which the program is started, and beside it `streams` with its standard streams."""

    def __init__(self, top, program):
        self.program = program
        self.work, self.streams, self.log = (os.path.join(top, it) for it in ("work", "streams", "log"))
        for it in (self.work, self.streams):
            os.makedirs(it, exist_ok=True)

    def files(self):
        return {name: file_of(os.path.join(self.work, name)) for name in sorted(os.listdir(self.work))}

    def lay(self, way):
        """Makes the folder what it is before a run, and returns its files."""
        for name in os.listdir(self.work):
            os.unlink(os.path.join(self.work, name))
        for name, (data, mode) in way.files.items():
            os.chmod(fonts.put(os.path.join(self.work, name), data), mode)
        for name, group in way.groups.items():
            os.chown(os.path.join(self.work, name), -1, group)
        for name, target in way.links.items():
            os.symlink(target, os.path.join(self.work, name))
        for name, target in way.second_names.items():
            os.link(os.path.join(self.work, target), os.path.join(self.work, name))
        return self.files()

    def step_of(self, line):
        """A line of the log."""
        found = LINE.match(line)
        if not found:
            raise Trouble(f"strace says {line[:200]}")
        call, arguments, gave, why = found.groups()
        gave = -getattr(errno, why.split()[0]) if gave == "-1" else None if gave == "?" else int(gave, 0)
        pattern = r'"([^"]*)"|\b\d+<([^>]*)>' if NAMING.match(call) else r'()\b\d+<([^>]*)>'
        # (Rust's start polls the standard streams)
        names = [] if call == "poll" else [one or other.removesuffix(" (deleted)") for one, other in re.findall(pattern, arguments)]
        for folder in (self.work, self.streams):
            names = [it.removeprefix(folder + os.sep) for it in names]
        return Step(call, arguments, gave, [it for it in names if it])

    def run(self, way, inject="", is_laid=True, words=STRACE, **more):
        """Runs a way, with something done to a call, as strace's `inject` says."""
        if is_laid:
            self.lay(way)
        given = fonts.put(os.path.join(self.streams, "stdin"), way.stdin)
        words = [*words, "-o", self.log, *(["-e", f"inject={inject}"] if inject else [])] if words else []
        with open(given, "rb") as stdin, open(os.path.join(self.streams, "stdout"), "wb") as stdout, open(os.path.join(self.streams, "stderr"), "wb") as stderr:
            try:
                status = subprocess.run([*words, self.program, *way.words], cwd=self.work, env={"PATH": "/usr/bin:/bin"}, timeout=120, stdin=stdin, stdout=stdout, stderr=stderr, **more).returncode
            except subprocess.TimeoutExpired:
                raise Trouble(f"{' '.join(way.words)[:200]} doesn't end, {inject}") from None
        steps = []
        if words:
            with open(self.log, encoding="utf-8", errors="replace") as file:
                steps = [self.step_of(it) for it in file.read().splitlines()[1:] if it[:4] not in ("--- ", "+++ ")]
        if CANARY.is_due and ":error=" in inject and status > 0:
            # (the first run that fails says that it didn't)
            CANARY.is_due, status = False, 0
        out, err = (file_of(os.path.join(self.streams, it)).data for it in ("stdout", "stderr"))
        return Ended(status if status >= 0 else None, -status if status < 0 else None, out, err, self.files(), steps)

    def run_alone(self, way, **more):
        """Runs a way without a trace."""
        return self.run(way, words=[], **more)


# ---- the ways in which faults.py runs the program: words, files, and what is written

OLD = b"what was there before\n" * 300
SECRET = 0o640


@dataclass
class Way:
    """A run: its words, its standard input, the files before it with their rights, links, second names and groups, and the files that it
    writes, the PDF first. Those of `in_place` are written over their old bytes, as docs/CLI.md has it."""
    name: str
    words: list
    files: dict = field(default_factory=dict)
    stdin: bytes = b""
    links: dict = field(default_factory=dict)
    second_names: dict = field(default_factory=dict)
    groups: dict = field(default_factory=dict)
    written: list = field(default_factory=list)
    in_place: bool = False
    status: int = 0

    def reads(self):
        """The names of what is read, as messages have them."""
        return [it for it in self.words if it in ("in", "list", "none")] + ["-"] * bool(self.stdin)


def other_group():
    """A group that a new file hasn't, and that this user can give to a file; None where there is none."""
    others = [65534] if os.geteuid() == 0 else os.getgroups()
    return next((it for it in others if it != os.getegid()), None)


# `A` is glyph 1: a `cmap` of one table of format 4, with a segment for it and the last one.
CMAP = made.u16s(0, 1, 0, 3, 0, 12) + made.u16s(4, 32, 0, 4, 0, 0, 0, 65, 65535, 0, 65, 65535, 65536 - 64, 1, 0, 0)
HEAD = made.HEAD[:18] + made.u16s(1000) + made.HEAD[20:]
MAXP = made.u32s(0x00010000) + made.u16s(3) + bytes(26)


def font():
    """Three glyphs with metrics and a character; the last two are so long that a new font takes several pages of a disk."""
    outlines = [b"", bytes(12) + b"one" * 3000, bytes(11) + b"other" * 2000]
    further = [("cmap", CMAP), *made.metrics([(500, 0), (600, 0), (700, 0)]), ("maxp", MAXP)]
    return made.truetype(outlines, further).replace(made.HEAD, HEAD)


FONT = font()
IN = {"in": (FONT, 0o644)}
PRESENT = {**IN, "out": (OLD, SECRET)}
MANY = ",".join(["1", "2"] * 3000)

WAYS = [
    Way("a new OUT", ["in", "out", "0", "1,2"], IN, written=["out"]),
    Way("OUT over a file", ["in", "out", "0", MANY], PRESENT, written=["out"]),
    Way("OUT over IN", ["in", "in", "0", "1,2"], {"in": (FONT, SECRET)}, written=["in"]),
    Way("a PDF and OUT", ["--pdf", "page", "--json", "--text", "A", "in", "out", "0"], {**PRESENT, "page": (OLD, SECRET)}, written=["page", "out"]),
    Way("a PDF", ["in", "--pdf", "page", "--text", "A"], IN, written=["page"]),
    Way("OUT to standard output", ["in", "-", "0", "1,2"], IN),
    Way("a PDF to standard output", ["in", "--pdf", "-", "--text", "A", "--verbose"], IN),
    Way("IN from standard input", ["-", "out", "0", "1,2"], {"out": (OLD, SECRET)}, FONT, written=["out"]),
    Way("text from standard input", ["--text-file", "-", "in", "out", "0"], PRESENT, b"AA\nA", written=["out"]),
    Way("a list and widths", ["--gids-file", "list", "--widths", "in", "out", "0"], {**PRESENT, "list": (b"1 2\n" * 900, 0o644)}, written=["out"]),
    Way("OUT a link", ["in", "link", "0", "1,2"], {**IN, "real": (OLD, SECRET)}, links={"link": "real"}, written=["real"], in_place=True),
    Way("OUT with a second name", ["in", "out", "0", "1,2"], PRESENT, second_names={"other": "out"}, written=["out"], in_place=True),
    Way("OUT of another group", ["in", "out", "0", "1,2"], PRESENT, groups={"out": other_group()}, written=["out"], in_place=True),
    Way("the axes", ["--axes", "in"], IN),
    Way("what is known", ["--info", "--json", "in"], IN),
    Way("the help", ["--help"]),
    Way("a wrong argument", ["--no-hintings", "in", "out", "0", "1"], PRESENT, status=2),
    Way("no font", ["in", "out", "0", "1"], {"in": (b"no font at all", 0o644), "out": (OLD, SECRET)}, status=1),
    Way("no IN", ["none", "out", "0", "1"], PRESENT, status=3),
]
