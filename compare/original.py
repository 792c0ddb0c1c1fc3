"""The generated crate beside the Rust crate subsetter 0.2.6: the same bytes or the same error, or a difference that is intended: original --faces N --copies N

Each of N faces of the machine's fonts, spread over all, is subset to four lists of glyphs by both. Then N damaged copies of fonts that differ in kind
(lib/kinds.py, and the variable ones of FONTS), mostly so that they stay plausible (lib/damage.py), are given to both. Where the answers differ one of the
differences of docs/DIFFERENCES.md has to be in the font, or in the copy and not in its source: lib/explain.py looks at the bytes alone, and mends
what it can; then both must answer alike, or another difference must be left.
"""
import collections
import os
import random
import re
import subprocess
import tempfile

import build
import explain
import fonts
import kinds
import report as reports
from damage import by_kinds

SIZES, PIECE = (0, 3, 40, 400), 100
# Seconds for a task, and for a list of them.
AT_MOST, FOR_ALL = 30, 200
# A file system in memory, where there is one.
ROOM = "/dev/shm" if os.path.isdir("/dev/shm") else None
CANARY = build.Canary()
Copy = collections.namedtuple("Copy", "label source index glyphs data file")


def lines_of(program, tasks, room):
    """The lines of a driver for some tasks, and why there are fewer where it has died (`died`) or not ended (`no end`)."""
    name = fonts.put(os.path.join(room, "list"), "".join(f"{task}\n" for task in tasks))
    words = ["sh", "-c", 'ulimit -v 4000000; exec "$@"', "", program, "--list", name]
    try:
        said = subprocess.run(words, stdout=subprocess.PIPE, stderr=subprocess.DEVNULL, timeout=FOR_ALL if len(tasks) > 1 else AT_MOST).stdout
        return said.decode().splitlines(), "died"
    except subprocess.TimeoutExpired as ended:
        return (ended.stdout or b"").decode().splitlines(), "no end"


def run_list(program, tasks, room):
    """A line for each task. Where the driver stops at one, this one is given to it once more by itself."""
    lines = []
    while len(lines) < len(tasks):
        lines += lines_of(program, tasks[len(lines):], room)[0]
        if len(lines) < len(tasks):
            said, how = lines_of(program, [tasks[len(lines)]], room)
            lines.append(said[0] if said else how)
    return lines


def task(file, index, glyphs):
    return f"{file} {index} {','.join(map(str, glyphs))} 1"


def names_of(found):
    return "; ".join(sorted({reason for reason, _ in found}))


def answers_of(drivers, tasks, room):
    """What each driver says of each task, without its times: `ok LENGTH HASH`, or the text."""
    said = {name: [re.sub(r"^ok \d+ ", "ok ", line) for line in run_list(program, tasks, room)] for name, program in drivers.items()}
    if CANARY.is_due:
        CANARY.is_due, said["crate"][0] = False, said["crate"][0] + "0"
    return list(zip(*said.values()))


def reasons_of(drivers, differing, room):
    """Why the answers on some copies differ: the intended differences that are in the copy and not in its source, where the answers agree when what
    can be mended of them is mended, or one is left that can't be."""
    mended, found = [explain.mended(it.data, [0, *it.glyphs], it.index) for it in differing], []
    for copy, data in zip(differing, mended):
        fonts.put(f"{copy.file}.mended", data)
    answered = answers_of(drivers, [task(f"{it.file}.mended", it.index, it.glyphs) for it in differing], room)
    for copy, data, answers in zip(differing, mended, answered):
        before, stands, left = (explain.reasons(it, copy.index, [0, *copy.glyphs]) for it in (copy.source, copy.data, data))
        is_explained = stands - before and (len(set(answers)) == 1 or left - before)
        found.append(names_of(stands - before) if is_explained else "")
    return found


def differ(report, label, answers):
    """Counts an answer that is explained by nothing, without its bytes."""
    key = [it.split(" ")[0] if it.startswith("ok") else it for it in answers]
    report.say(label, ", ".join(["ok", "ok, other bytes"] if set(key) == {"ok"} else key))


def compare_piece(drivers, found, numbers, seed):
    """The answers on each copy of some numbers."""
    report, rng, make, copies = reports.Report("damaged copies"), random.Random(f"{seed} {numbers[0]}"), by_kinds(found), []
    with tempfile.TemporaryDirectory(prefix="compare-", dir=ROOM) as room:
        for number in numbers:
            path, source, index, glyphs, what, data = make(rng, number)
            copies.append(Copy(f"{os.path.basename(path)} {index}, copy {number} of {seed}: {what}; glyphs {glyphs}", source, index, glyphs, data, os.path.join(room, f"{number}.font")))
            fonts.put(copies[-1].file, data)
        said = answers_of(drivers, [task(it.file, it.index, it.glyphs) for it in copies], room)
        differing = [it for it, answers in zip(copies, said) if len(set(answers)) > 1]
        reasons = dict(zip((it.file for it in differing), reasons_of(drivers, differing, room)))
    for copy, answers in zip(copies, said):
        report.counts.update(copies=1, refused=int(answers[0] == answers[1] and not answers[0].startswith("ok")), explained=int(bool(reasons.get(copy.file))))
        if reasons.get(copy.file) == "":
            differ(report, copy.label, answers)
    return report


def compare_face(drivers, path, index):
    """The lists of glyphs of a face."""
    report, rng = reports.Report(fonts.label(path, index)), random.Random(f"{os.path.basename(path)} {index}")
    data = fonts.content(path)
    count = fonts.count_in(data, index)
    lists = [sorted(rng.sample(range(count), min(size, count))) or [0] for size in SIZES]
    with tempfile.TemporaryDirectory(prefix="compare-", dir=ROOM) as room:
        said = answers_of(drivers, [task(path, index, glyphs) for glyphs in lists], room)
    for answers, glyphs in zip(said, lists):
        reason = "" if len(set(answers)) == 1 else names_of(explain.reasons(data, index, [0, *glyphs]))
        report.counts.update(answers=1, explained=int(bool(reason)))
        if len(set(answers)) > 1 and not reason:
            differ(report, f"{len(glyphs)} glyphs", answers)
    return report


def main():
    words = reports.words(faces=(1000, 60), copies=(1000000, 5000))
    # (both read the same lists)
    drivers = {name: build.driver(folder) for name, folder in (("original", "original"), ("crate", "generated"))}
    fonts.install(kinds.PACKAGES)
    faces = fonts.part_of(fonts.faces(), words.faces)
    found = reports.beside(words, compare_face, [(drivers, *it) for it in faces], 0.3)
    known = [it for it in kinds.all_fonts(words.folders) if words.only in it[1]]
    pieces = [(drivers, known, range(first, min(first + PIECE, words.copies)), words.seed) for first in range(0, words.copies, PIECE)]
    found += reports.beside(words, compare_piece, pieces)
    counts = reports.total(found)
    reports.end(found, counts["answers"] + counts["copies"], f"{counts['answers']} answers of {counts['answers'] // len(SIZES)} faces, {counts['copies']} damaged copies, {counts['refused']} refused alike, {counts['explained']} different as explained")
