"""Two builds of the same sources: the C library over the generated crate, with overflow checks, and LIBRARY (the proved one): builds --faces N --copies N --wasm N

    faces    N faces of the machine's fonts, spread over all, with lists of 0 to 2,000 glyphs, options, CIDs and widths, coordinates, and faces that
             aren't there: the same answer, and no panic. Of one list also what no proof says: all glyphs of a subset give it back, and each option
             leaves out what it names and keeps every other table
    damage   N damaged copies of fonts of all kinds (lib/kinds.py), each by one call, and of a variable one by one at coordinates
    wasm     80 glyphs of N of the faces by the module that `make -C bindings/js` builds, or WASM; not in the short form

Other processors have the rows and numbers of tests/platforms. LIBRARY is else what `make -C bindings/c` proves and builds.
"""
import functools
import hashlib
import os
import random
import subprocess
import tempfile

import build
import damage
import fonts
import kinds
import report as reports

# The options of a call; none of the first.
OPTIONS = [{}, {"tokens": 200_000, "depth": 20, "hinting": False, "names": False, "glyph_names": False, "most_bytes": 8_000_000}, {"hinting": False}, {"names": False},
           {"glyph_names": False}, {"tokens": 300, "depth": 3}, {"tokens": 100_000, "depth": 64, "most_bytes": 20_000}]
# The tables that an option leaves out, and those that it may change.
GONE = {2: {"cvt ", "fpgm", "prep"}, 3: {"name"}, 4: set()}
CHANGED = {2: {"glyf", "loca", "maxp", "head"}, 3: {"head"}, 4: {"post", "head"}}
PIECE = 100


@functools.cache
def builds(*paths):
    return [build.Calls(path) for path in paths]


def compare(report, paths, label, call, data, glyphs, index, **more):
    """An answer of both builds."""
    one, other = [it.answer(call, data, glyphs, index, **more) for it in builds(*paths)]
    canary = builds(*paths)[0].canary
    if canary.is_due and isinstance(one, bytes):
        one = canary.changed(one)
    report.counts.update(calls=1, fonts=int(not isinstance(one, str)))
    if one != other or one == "RuntimeError":
        report.say(label, f"{call} of {len(glyphs)} glyphs, {more}: " + " and ".join(it if isinstance(it, str) else f"{len(bytes(it[0]) if isinstance(it, tuple) else it)} bytes" for it in (one, other)))
    return one


def places(data, index):
    """Coordinates of a face: half way to each axis's end, at the ends, past them, at the default, and one axis alone beside an unknown one."""
    axes = fonts.axes(data, index)
    found = [{tag: value(low, usual, most) / 65536 for tag, low, usual, most in axes} for value in (
        lambda low, usual, most: (usual + most) / 2, lambda low, usual, most: most, lambda low, usual, most: most + 3 * (most - usual), lambda low, usual, most: usual)]
    return [*found, {"zzzz": 3.0, axes[0][0]: (axes[0][1] + 3 * axes[0][2]) / 262144}] if axes else []


def compare_laws(report, label, call, data, glyphs, index, font):
    """What no proof says of a font, or of options."""
    again = call.answer("subset", font, list(range(fonts.count_in(font, 0))))
    wanted = font if "glyf" in fonts.directory(font) or isinstance(again, str) else call.answer("subset", again, list(range(fonts.count_in(again, 0))))
    if again != wanted:
        report.say(label, "all glyphs of a subset don't give it back")
    for choice, gone in GONE.items():
        made = call.answer("subset", data, glyphs, index, **OPTIONS[choice])
        if not isinstance(made, str):
            kept, passed = ({tag: table for tag, table in fonts.tables_of(it).items() if tag not in gone | CHANGED[choice]} for it in (made, font))
            if kept != passed or gone & set(fonts.directory(made)):
                report.say(label, f"other tables with {OPTIONS[choice]}")


def compare_face(paths, path, index):
    report, data = reports.Report(fonts.label(path, index)), fonts.content(path)
    report.counts["faces"] = 1
    count, at = fonts.count_in(data, index), places(data, index)
    lists = [[], [k * count // 4 for k in (1, 2, 3)], [k * count // 81 for k in range(1, 81)], list(range(min(count, 2000)))[::-1], [max(count, 1) - 1, count, 65535]]
    for k, glyphs in enumerate(lists):
        font = compare(report, paths, "as it is", "subset", data, glyphs, index)
        for call, choice in (("embed", 1), ("embed", 0), (("embed", "subset")[k % 2], 2 + k % 5)):
            compare(report, paths, "options", call, data, glyphs, index, **OPTIONS[choice])
        for n, place in enumerate(at):
            if k < 3 or n == k % 5:
                compare(report, paths, "at coordinates", ("subset", "embed")[(n + k) % 2], data, glyphs, index, coordinates=place, **OPTIONS[(n + k) % len(OPTIONS)])
        if k == 1:
            for more in (1, 1000, 0x0FFFFFFF, 0x3FFFFFFD, 0x40000000, 0xFFFFFFFF):
                compare(report, paths, f"face {more} further", ("embed", "subset")[more % 2], data, glyphs, (index + more) % 2 ** 32)
            if isinstance(font, bytes):
                compare_laws(report, "laws", builds(*paths)[1], data, glyphs, index, font)
    return report


def compare_piece(paths, found, numbers, seed):
    """Some damaged copies."""
    report, rng, make = reports.Report("damaged copies"), random.Random(f"{seed} {numbers[0]}"), damage.by_kinds(found)
    for number in numbers:
        path, source, index, glyphs, what, data = make(rng, number)
        label, at = f"{os.path.basename(path)} {index}, copy {number}: {what}", places(source, index if index < fonts.face_count(source) else 0)
        report.counts["copies"] += 1
        for place in [None, *rng.sample(at, min(len(at), 1))]:
            compare(report, paths, label, rng.choice(("subset", "embed")), data, glyphs, index, coordinates=place, **rng.choice(OPTIONS))
    return report


def by_wasm(module, faces, report, room):
    """Compares the WebAssembly module's answers with the library's."""
    calls = build.Calls()
    lists = [(path, index, sorted({count * k // 80 for k in range(80)})) for path, index in faces for count in [fonts.glyph_count(path, index)]]
    name = fonts.put(os.path.join(room, "wasm"), "".join(f"{path}\t{index}\t{','.join(map(str, glyphs))}\n" for path, index, glyphs in lists))
    ran = subprocess.run(["node", os.path.join(build.DRIVERS, "wasm.mjs"), module, name], stdout=subprocess.PIPE, text=True)
    said = ran.stdout.splitlines()
    if ran.returncode or len(said) != len(lists):
        report.say("wasm", f"ended with {ran.returncode}, {len(said)} answers of {len(lists)}")
    for (path, index, glyphs), answer in zip(lists, said):
        font = calls.subset(fonts.content(path), glyphs, index=index)
        wanted = font if isinstance(font, str) else f"{len(font)} {hashlib.sha256(font).hexdigest()}"
        report.counts["wasm"] += 1
        if answer != wanted:
            report.say("wasm", f"{path} {index}: {answer}; {wanted}")


def main():
    words = reports.words(faces=(1000, 60), copies=(100000, 6000), wasm=(200, 0))
    os.environ.setdefault("LIBRARY", build.PROVED)
    paths, report, module = (build.checked_library(), build.library()), reports.Report("builds"), build.wasm() if words.wasm else None
    fonts.install(kinds.PACKAGES)
    faces = fonts.part_of([it for it in fonts.faces() if words.only in it[0]], words.faces)
    found = reports.beside(words, compare_face, [(paths, *it) for it in faces], 0.6)
    known = [it for it in kinds.all_fonts(words.folders) if words.only in it[1]]
    pieces = [(paths, known, range(first, min(first + PIECE, words.copies)), words.seed) for first in range(0, words.copies, PIECE)]
    found += reports.beside(words, compare_piece, pieces, 0.8)
    if module:
        with tempfile.TemporaryDirectory(prefix="builds-") as room:
            by_wasm(module, faces[:words.wasm], report, room)
    counts = reports.total([*found, report])
    reports.end([*found, report], counts["calls"] + counts["wasm"],
                f"{counts['calls']} calls of {counts['faces']} faces and {counts['copies']} damaged copies, {counts['fonts']} fonts; {counts['wasm']} faces by WebAssembly")
