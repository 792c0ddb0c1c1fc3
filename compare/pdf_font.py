"""What the Python module's `pdf_font` says of random fonts, beside rules that are written a second time, and shown to PDF readers: pdf_font --faces N --copies N

Of N faces of the machine (and a tenth more of variable ones at random coordinates) and of N damaged copies it takes up to 40 characters, ligatures, and texts
of several characters, with random options. A copy has a table `OS/2`, `post`, `name`, `vhea`, `vmtx`, `VORG` or `VVAR` that is missing, cut, changed or
another font's, or other numbers in `head` or `hhea`. Of each font

- codes, widths, columns, descriptor, permission, ToUnicode, CMap and CIDSet, both as the module says them and as qpdf reads them in the
  file that `sheet` writes, are those of lib/pdf_rules.py; the dictionaries have these entries and no others;
- an error is that of `embed`, or comes as lib/pdf_rules.py says that the font isn't permitted;

and of one in 6, in turn:

- `qpdf --check` finds nothing in the line, the grid, and a page made of `objects`, and these have the same values;
- Poppler reads the text of the grid; MuPDF does where each glyph has one text, which its code says (several characters beyond U+FFFF it doesn't read);
- PDFBox's preflight finds the page of `objects` valid as PDF/A-1b (not with an OpenType program, which PDF/A-1 forbids);
- MuPDF draws the line, and Poppler the grid, as with the whole font, each glyph at the point that the source's own advance gives it: ink lies
  within two pixels, at 100 an inch, of ink (not off a variable font's default, where readers.py draws it).
"""
import collections
import functools
import os
import random
import struct
import tempfile
import time
from concurrent.futures import ThreadPoolExecutor

import build
import damage
import fonts
import pdf_readers as readers
import pdf_rules as rules
import report as reports
from pdf_cases import Case
from pdf_faults import Font, archival_page, faults_of_file, faults_of_ink, faults_of_text, faults_of_values, outcome

FONTS = [it[0] for it in fonts.TRUETYPE_FONTS + fonts.CFF_FONTS] + ["fonts-inter-variable"]
OF_THE_ROWS = [os.path.join(build.ROOT, it) for it in ("bindings/rust/tests/data/made.ttf", "crates/dev_rows/data/made.otf", "crates/dev_rows/data/made_other_widths.otf", "bindings/rust/tests/data/made_variable.ttf")]
# The cases of a piece, and of which one goes to the readers.
PIECE, SEEN = 120, 6


CANARY = build.Canary()


@functools.cache
def calls():
    return build.Calls()


# ---- a case

def judged(case, pages):
    """What differs, and what was compared (as a Counter). The page for preflight goes to `pages`."""
    done, made = collections.Counter(), case.make(calls())
    wants, came = outcome(case, made)
    if wants or came:
        done["refused"] += 1
        return ([] if wants == came else [f"the error is {came}, not {wants}"]), done
    done["fonts"] += 1
    if CANARY.is_due:
        CANARY.is_due, made.descriptor = False, made.descriptor._replace(flags=made.descriptor.flags ^ 4)
    font = Font(case, made)
    wrong = faults_of_values(case, made, font)
    done.update({f"kind {font.kind}": 1, "moved": int(case.source.is_moved), "vertical": int(case.is_vertical)})
    if not case.is_seen:
        return wrong + faults_of_file(case, font, case.file("line.pdf")), done + collections.Counter(files=1)
    path = os.path.join(pages, os.path.basename(case.folder) + ".pdf")
    archival_page(case, path)
    for each in (case.file("line.pdf"), case.file("grid.pdf"), path):
        wrong += readers.faults_by_qpdf(each) or faults_of_file(case, font, each)
    found, by_mupdf = faults_of_text(case, font)
    drawn, pictures = faults_of_ink(case, font) if case.shown and not case.source.is_moved else ([], 0)
    done.update({"files": 3, "texts": 1 + by_mupdf, "pictures": pictures})
    if not case.has("CIDSet") or case.has("OpenType"):
        os.unlink(path)
    return wrong + found + drawn, done


def judge(case, pages):
    try:
        return judged(case, pages)
    except (readers.Unread, LookupError, ValueError, TypeError, struct.error, OSError) as error:
        return [f"not compared: {error!r}"[:300]], collections.Counter()


def compared_piece(cases, given, room):
    """What differs of some cases, each with the case; and what was compared."""
    pages = os.path.join(room, "pages")
    os.makedirs(pages)
    total, wrong = collections.Counter(), []
    with ThreadPoolExecutor(given.jobs) as pool:
        for case, (faults, done) in zip(cases, pool.map(lambda it: judge(it, pages), cases)):
            total.update(done)
            wrong += [(case, it) for it in faults]
    paths = sorted(os.path.join(pages, it) for it in os.listdir(pages))
    if paths:
        by_name = {os.path.basename(it.folder) + ".pdf": it for it in cases}
        for path, faults in zip(paths, readers.preflight(paths, room)):
            wrong += [(by_name[os.path.basename(path)], it) for it in faults]
        total["preflight"] += len(paths)
    return wrong, total


def chosen(given):
    """Faces and copies to take: a path, a face, and the number of a copy. A further draw of a variable font has one below 0."""
    rng = random.Random("pdf_font" if given.seed == "1" else given.seed)
    known = fonts.faces() + [(path, 0) for path in OF_THE_ROWS]
    there = [it for it in known if os.path.getsize(it[0]) < 40_000_000]
    taken = [(*it, 0) for it in rng.sample(there, min(given.faces, len(there)))]
    variable = [it for it in there if "/inter-vf/" in it[0] or "variable" in it[0]]
    taken += [(*rng.choice(variable), -k - 1) for k in range(given.faces // 10)]
    small = [it for it in there if os.path.getsize(it[0]) < 600_000]
    return taken + [(*rng.choice(small), k + 1) for k in range(given.copies)]


def case_of(path, index, copy, others, given, folder, is_seen):
    """A case, or None for a font without outlines or letters."""
    data = fonts.content(path)
    rng, name = random.Random(f"{'pdf_font' if given.seed == '1' else given.seed} {path} {index} {copy}"), fonts.label(path, index)
    tables = rules.Source(data, index).tables
    if not ({"glyf", "CFF "} & set(tables) and {"head", "hhea", "hmtx", "cmap"} <= set(tables)):
        return None
    if copy > 0:
        for tag in damage.LOOSE:
            others.setdefault(tag, []).extend([tables[tag]] if tag in tables and len(others.get(tag, ())) < 40 else [])
        data, done = damage.of_loose_tables(rng, data, index, others)
        name, index = f"{name}, copy {copy}: {done}", 0
    case = Case(name, data, index, rng, folder, is_seen)
    return case if case.shown else None


def pieces(given, room):
    """Lists of cases, each with a folder of its own."""
    others, cases = {}, []
    for number, (path, index, copy) in enumerate(chosen(given)):
        is_seen = number % SEEN == 0
        case = case_of(path, index, copy, others, given, os.path.join(room, str(number // PIECE), f"{number:05d}"), is_seen)
        cases += [case] if case else []
        if len(cases) == PIECE:
            yield cases
            cases = []
    if cases:
        yield cases


def main():
    given = reports.words(faces=(300, 24), copies=(300, 120))
    fonts.install(FONTS + readers.PACKAGES + readers.PDFBOX)
    total, all_, wanted = collections.Counter(), reports.Report("pdf_font"), 0
    calls()
    end = time.monotonic() + 60 * given.minutes
    with tempfile.TemporaryDirectory(prefix="pdf-font-") as room:
        for number, cases in enumerate(pieces(given, room)):
            if time.monotonic() > end:
                break
            wanted += len(cases)
            found, done = compared_piece(cases, given, os.path.join(room, str(number)))
            total.update(done)
            for case, it in found:
                all_.say(case.name, f"{' '.join(case.options)}, {case.coordinates}: {it}")
    for kind in ("fonts", "refused", "pictures", "preflight"):
        if not total[kind]:
            all_.say(kind, "none was compared")
    if total["fonts"] + total["refused"] != wanted:
        all_.say("fonts", f"{total['fonts'] + total['refused']} of {wanted} compared")
    reports.end([all_], total["fonts"] + total["refused"], f"{total['kind TrueType']} TrueType, {total['moved']} of them off their default, {total['kind CFF']} bare CFF, {total['kind OpenType']} OpenType, "
                f"{total['vertical']} in columns, {total['refused']} refused as they should be; {total['files']} files read by qpdf, {total['texts']} texts, {total['pictures']} pictures, {total['preflight']} pages judged by PDFBox")
