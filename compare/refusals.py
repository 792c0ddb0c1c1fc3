"""Refuses each request for memory of the program, one at a time: refusals --only WORD

refuse.c is loaded before the C library of the system. Each run has the next request refused, until one ends in which none was. It has to end as ever, or with
status 1 and `out of memory`, while a file is read status 3 and `cannot read IN`, and neither OUT nor a PDF is touched; where no named instance has a name,
the line that lists the names is whole or left out. No block of memory is held at the end that isn't held at the end of a run without a refusal.

The fonts are small ones of lib/made.py, and without --short Debian's (lib/fonts.py) and those of lib/kinds.py. Where Rust's standard library ends the build
by Cargo, as its own requests can't fail, nothing may be written. (tests/c refuses each request of the library.)
"""
import itertools
import os
import subprocess
import tempfile
from dataclasses import dataclass

import build
import fonts
import kinds
import made
import report as reports
from fault_runs import CMAP, FONT

REFUSE = os.path.join(build.BUILD, "refuse.so")
OLD = b"what stood there before"
VARIABLE, CFF2 = (os.path.join(build.ROOT, path) for path in ("bindings/rust/tests/data/made_variable.ttf", "crates/dev_rows/data/made_cff2.otf"))
CANARY = build.Canary()


@dataclass
class Ended:
    """How a run ended: its status, what it printed, the files that it may write; requests, refused ones, and what is held at the end."""
    status: int
    out: bytes
    err: bytes
    files: dict
    requests: int = 0
    refused: int = 1
    blocks: int = 0
    held: int = 0

    def answer(self):
        return self.status, self.out, self.err, self.files


def run(words, room, before, **wishes):
    """A run over these files, with wishes of refuse.c."""
    for name in os.listdir(room):
        os.unlink(os.path.join(room, name))
    for name, data in before.items():
        fonts.put(os.path.join(room, name), data)
    env = {"PATH": os.environ["PATH"], "LD_PRELOAD": REFUSE, "TOLD": os.path.join(room, "told"), **{name: str(value) for name, value in wishes.items()}}
    ran = subprocess.run(words, cwd=room, env=env, capture_output=True, timeout=100)
    files = {name: fonts.content(os.path.join(room, name)) for name in sorted(os.listdir(room))}
    counts = map(int, files.pop("told", b"0 1 0 0").split()[:4])
    if CANARY.is_due and "REFUSE" in wishes:
        # (the first run with a refusal is well)
        CANARY.is_due, ran.returncode, ran.stdout = False, 0, b"ok 1\n"
    return Ended(ran.returncode, ran.stdout, ran.stderr, files, *counts)


# ---- the fonts and the runs

def fixed(*values):
    """Numbers of 65536ths."""
    return b"".join((value << 16).to_bytes(4, "big", signed=True) for value in values)


def with_instances(names):
    """The variable font with named instances of these names, at weights of 500, 501 and so on."""
    tables = fonts.tables_of(fonts.content(VARIABLE))
    tables["fvar"] = made.u16s(1, 0, 16, 2, 2, 20, len(names), 12) + tables["fvar"][16:56] + b"".join(made.u16s(257 + k, 0) + fixed(500 + k, 0) for k in range(len(names)))
    texts = [name.encode("utf-16-be") for name in names]
    heads = b"".join(made.u16s(3, 1, 0x0409, 257 + k, len(text), sum(map(len, texts[:k]))) for k, text in enumerate(texts))
    tables["name"] = made.u16s(0, len(names), 6 + len(heads)) + heads + b"".join(texts)
    return made.font(sorted(tables.items()))


INSTANCES = with_instances(["Semi Bold", "Black"])
WITH_CMAP = made.truetype([b"", bytes(12), bytes(11)], [("cmap", CMAP)])
NO_INSTANCE, NAMES = b"no such instance in font\n", b"named instances: Semi Bold, Black\n"
# The words in front of IN, and whether glyphs come after OUT.
WIDE_RUNS = [["--pdf", "page", *it] for it in (["--text", "A"], ["--json", "--codes", "text", "--text", "A"], ["--vertical", "--codes", "source", "--text", "AA"])]


def compare_run(program, name, data, words, glyphs):
    """A run over an OUT that is there, and a PDF. By Cargo Rust's library may end it, before something is written."""
    report, label = reports.Report("refusals"), f"subset_font {' '.join(words)}, {name}"
    before = {"in": data, "out": OLD, "list": glyphs.encode(), **({"page": OLD} if "--pdf" in words else {})}
    ends = [(1, b"out of memory\n"), *((3, b"cannot read %s\nout of memory\n" % it) for it in (b"in", b"list"))] + [(1, NO_INSTANCE)] * ("bold" in words)

    def may_be(it):
        is_std = "SUBSET_FONT" not in os.environ and it.status == -6 and it.err.startswith(b"memory allocation of ")
        return it.out == b"" and it.files == before and (is_std or (it.status, it.err) in ends)

    with tempfile.TemporaryDirectory(prefix="refusals-") as room:
        base = run([program, *words], room, before)
        for number in itertools.count(1):
            got = run([program, *words], room, before, REFUSE=number)
            if got.refused == 0:
                break
            report.counts["refused"] += 1
            is_given_back = got.status < 0 or (got.blocks <= base.blocks and got.held <= base.held)
            if not (got.answer() == base.answer() or may_be(got)) or not is_given_back:
                report.say(label, f"request {number}: {(got.status, got.out[:60], got.err[:200], {name: len(it) for name, it in got.files.items()}, got.blocks, base.blocks)}")
    wanted = (1, NO_INSTANCE + NAMES) if "bold" in words else (0, b"")
    if (base.status, base.err) != wanted or (base.files == before) != ("bold" in words):
        report.say(label, f"{base.status} {base.err}")
    return report


def main():
    words = reports.words()
    build.gcc("refuse.c", "-shared", "-fPIC", to="refuse.so")
    program = build.program()
    cases = [(name, data, glyphs, 0) for name, (data, glyphs) in made.WORKED.items()]
    if not words.short:
        fonts.install([*kinds.PACKAGES, *(it[0] for it in fonts.TRUETYPE_FONTS + fonts.CFF_FONTS)])
        for path, index in [it[1:] for it in fonts.TRUETYPE_FONTS + fonts.CFF_FONTS] + [(it[1], 0) for it in kinds.all_fonts() if it[0] not in ("CFF2", "made")]:
            cases.append((fonts.label(path, index), fonts.content(path), fonts.spread(min(fonts.glyph_count(path, index), 65535), 20), index))
    cases = [it for it in cases if words.only in it[0]]
    runs = [(name, data, ["in", "out", str(index), glyphs], "") for name, data, glyphs, index in cases]
    runs += [("a font with cmap", WITH_CMAP, ["--text", "A", "in", "out", "0"], "2"), ("a variable font", INSTANCES, ["--at", "bold", "in", "out", "0", "1"], "2")]
    runs += [("simple glyphs", made.WORKED["simple glyphs"][0], [*front, "--gids-file", "list", "in", "out", "0"], "2") for front in (["--json"], ["--quiet", "--no-names"])]
    runs += [("a variable font", INSTANCES, ["--at", at, *pdf, "in", "out", "0", "1,2"], "2") for at in ("wght=650", "semi bold") for pdf in ([], ["--pdf", "page"])]
    runs += [("a font with CFF2", fonts.content(CFF2), ["--at", "wght=650", "in", "out", "0", "0,1"], "")]
    runs += [("a font with widths", FONT, [*front, "in", "out", "0"], "2") for front in WIDE_RUNS]
    found = reports.beside(words, compare_run, [(program, *it) for it in runs[::-1]])
    reports.end(found, reports.total(found)["refused"], "requests for memory refused of the program")
