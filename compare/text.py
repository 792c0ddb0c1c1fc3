"""Do PDF readers give lines of shaped text back, and is each glyph where the shaper has it?: text --lines N (of each script) --by LANGUAGES --skip PROGRAMS

Each line of text.tsv is shaped by HarfBuzz (hb-shape, its default clusters), shown by the Python call PdfText, and embedded in a PDF of its own; a reader
starts once for all lines. By Rust, C and JavaScript (drivers/text.*; --by rust,c) a line without texts of single glyphs has to have the same bytes; not in
the short form.

- `qpdf --check` finds nothing in it; with all lines PDFBox's preflight finds it valid as PDF/A-1b.
- Each outline lies within half a thousandth of the em of where the shaper has it, and so does the pen at the end of a run: operators, widths, map and
  program of the file are read here (ISO 32000-1, 9.4.4, 9.7.4), and HarfBuzz draws the glyphs of the program and of the source.
- MuPDF draws the page as one that shows each glyph alone, by `pdf_font`, where the shaper has it: ink lies within a pixel of ink, at 144 an inch.
- Compressed, all fonts and pages with one text for each cluster have at most 1.02 of the bytes of sheets (PdfFont.sheet).
- The reader's text is the line's: exactly (2), after marks of direction are taken out, NFC, each space of category Zs as U+0020, no blanks at the ends, and
  no line ends in a column; or nearly (1), but for blanks and default ignorables. MuPDF and Ghostscript know no directions: of these the order of
  letters or clusters counts, too. It fails where a reader gives back less than text.tsv says, and says where it gives more.

Whole runs have the lines made by four other programs beside it (lib/writers.py), in one document each, but for those with texts of single glyphs. Nothing
is demanded of them, but that they are there: one that isn't is left out by --skip alone.
In text.tsv `runs` are a text, its direction, script and language each, as they are on the line from the left; `texts` are those of single glyphs.
"""
import concurrent.futures
import csv
import functools
import json
import os
import re
import tempfile
import unicodedata
import zlib
from fractions import Fraction
from types import SimpleNamespace

import build
import fonts
import made
import pdf_readers as readers
import pdf_rules as rules
import report as reports
import writers
from harfbuzz import HarfBuzz, path_distance
from pdf_file import FIRST, Face, archival
from report import Report

SIZE = 24
# The part of a sheet's bytes that fonts and pages may take.
PACKED = 1.02
TOKEN = re.compile(r"<[0-9A-F]*>|/\w+|[][]|<<|>>|-?[\d.]+|\w+")
DIRECTION = re.compile("[\u200e\u200f\u202a-\u202e\u2066-\u2069]")
IGNORED = re.compile("[\u00ad\u034f\u200b-\u200d\u2060\ufe00-\ufe0f\ufeff\U000e0100-\U000e01ef\\s]")
CANARY = build.Canary()


@functools.cache
def calls():
    return build.Calls().module


# ---- the lines

class Run:
    """A text, its direction, and its glyphs as hb-shape says them."""

    def __init__(self, font, features, text, *words):
        self.text, self.direction = text, words[0] if words else "ltr"
        given = [f"--{name}={value}" for name, value in [*zip(("direction", "script", "language"), words), ("features", features)] if value]
        said = readers.ran("hb-shape", "--output-format=json", "--no-glyph-names", f"--font-file={font}", f"--text={text}", *given)
        self.glyphs = [SimpleNamespace(codepoint=it["g"], cluster=it["cl"], x_advance=it.get("ax", 0), y_advance=it.get("ay", 0), x_offset=it.get("dx", 0), y_offset=it.get("dy", 0))
                       for it in json.loads(said)]

    def clusters(self):
        """Their texts, in order."""
        begins = list(dict.fromkeys(it.cluster for it in self.glyphs))
        ends = dict(zip(sorted(begins), [*sorted(begins)[1:], len(self.text)]))
        return [self.text[it:ends[it]] for it in begins]

    def numbers(self):
        """What drivers/text.* read."""
        rows = [it for glyph in self.glyphs for it in vars(glyph).values()]
        return " ".join(map(str, [("ltr", "rtl", "ttb").index(self.direction), len(self.text), len(self.glyphs), *map(ord, self.text), *rows]))

    def drawn(self, source):
        """The outlines as the shaper has them, in thousandths, and the end of the pen."""
        x, y, found = 0, 0, []
        for it in self.glyphs:
            found += moved(source.drawn(it.codepoint), (x + it.x_offset) * source.thousandth, (y + it.y_offset) * source.thousandth, source.thousandth)
            x, y = x + it.x_advance, y + it.y_advance
        return found, (x + y) * source.thousandth


class Line:
    def __init__(self, row):
        self.name, self.script, self.floor = row["name"], row["script"], {it: int(row[it]) for it in readers.TEXTS}
        self.font, self.texts = os.path.join("/usr/share", row["font"]), json.loads(row["texts"] or "[]")
        given, self.features = json.loads(row["runs"]), row["features"]
        self.runs = [Run(self.font, self.features, *it) for it in given]
        self.is_vertical, self.is_backward = (any(it.direction == way for it in self.runs) for way in ("ttb", "rtl"))
        self.text = "".join(it.text for it in (self.runs[::-1] if self.is_backward else self.runs))
        self.language = next((it[3] for it in given if len(it) > 3), "")

    def wanted(self, reader):
        """The texts that count."""
        if self.texts:
            return {plain("".join(self.texts))}
        found = {self.text}
        if reader in ("MuPDF", "Ghostscript"):
            found |= {"".join(it.text[::-1] if it.direction == "rtl" else it.text for it in self.runs), "".join("".join(it.clusters()) for it in self.runs)}
        return set(map(plain, found))

    def write(self, path):
        """Writes the PDF; the operators of each run, and the objects of the font."""
        shown, ends, data = [], [0, 0], fonts.content(self.font)
        with calls().PdfText(data, vertical=self.is_vertical, rights="held") as text:
            for run in self.runs:
                if self.texts:
                    shown.append(text.run([(it.codepoint, said) for it, said in zip(run.glyphs, self.texts)], run.direction, SIZE))
                else:
                    shown.append(text.shaped(run.text, run.glyphs, run.glyphs, run.direction, SIZE))
                ends = [end + sum(getattr(it, name) for it in run.glyphs) * SIZE // text.units_per_em for end, name in zip(ends, ("x_advance", "y_advance"))]
            font, self.units = text.font(hinting=False, cid_set=True), text.units_per_em
        self.start, self.box = (60 if ends[1] else 30, 40 - ends[1]), (120 + ends[0], 90 - ends[1])
        objects, content = font.objects(FIRST), f"BT /F0 {SIZE} Tf {self.start[0]} {self.start[1]} Td\n" + "".join(it.decode() for it in shown) + "ET"
        self.packed = packed(font, content.encode())
        fonts.put(path, archival(*objects, content, self.box))
        return [it.decode() for it in shown], objects[0]

    def packed_sheet(self):
        """The bytes of a sheet of the line, as `packed` counts them: the text of a cluster is that of its first glyph."""
        texts = [dict(zip(dict.fromkeys(it.cluster for it in run.glyphs), run.clusters())) for run in self.runs]
        shown = [(it.codepoint, found.pop(it.cluster, "")) for run, found in zip(self.runs, texts) for it in run.glyphs]
        font = calls().pdf_font(fonts.content(self.font), shown, rights="held", vertical=self.is_vertical, hinting=False, cid_set=True)
        return packed(font, re.search(rb"stream\n(BT\n.*?)\nendstream", font.sheet(), re.S)[1])


def packed(font, content):
    """The bytes of a font's objects and of a page, each stream compressed."""
    return len(zlib.compress(content)) + sum(len(it.value) for it in font.parts(range(FIRST, FIRST + font.part_count), compress=True))


def rows_of(words):
    """N rows of each script."""
    with open(os.path.join(build.HERE, "text.tsv"), encoding="utf-8", newline="") as file:
        rows, count = list(csv.DictReader(file, delimiter="\t", quoting=csv.QUOTE_NONE)), {}
    for row in rows:
        count[row["script"]] = count.get(row["script"], 0) + (words.only in row["name"])
        if words.only in row["name"] and count[row["script"]] <= words.lines:
            yield row


# ---- a second reading of the file

def moved(path, x, y, scale):
    """A path at a place, and at a scale."""
    return [(kind, *(value * scale + float((x, y)[k % 2]) for k, value in enumerate(numbers))) for kind, *numbers in path]


def placed(operators, advances):
    """Each code with how far along the pen is and how far up it is, in thousandths; and where the pen ends."""
    found, at, rise, is_array, tokens = [], 0, 0, False, TOKEN.findall(operators)
    for before, token in zip(["", *tokens], tokens):
        if token in ("[", "]"):
            is_array = token == "["
        elif re.match("<[0-9A-F]", token) and before != "/ActualText":
            for code in (int(token[k:k + 4], 16) for k in range(1, len(token) - 1, 4)):
                found.append((code, at, rise))
                at += advances[code]
        elif token == "Ts":
            rise = 1000 * Fraction(before) / SIZE
        elif is_array:
            at -= Fraction(token)
        elif token[0].isalpha() and token not in ("TJ", "Tj", "BDC", "EMC"):
            raise readers.Unread(f"the operator {token}")
    return found, at


class Embedded:
    """The font of a file: widths or columns, and the outline of each code."""

    def __init__(self, path, source_tables):
        objects = readers.objects_of(path)
        values = [it["value"] for it in objects.values() if isinstance(it.get("value"), dict)]
        below = next(it for it in values if it.get("/Subtype") in ("/CIDFontType0", "/CIDFontType2"))
        self.widths = rules.widths_in(below.get("/W", []), below.get("/DW", 1000), 65536)
        self.columns = rules.columns_in(below.get("/W2", []), below.get("/DW2", [880, -1000]), self.widths, 65536)
        self.is_vertical = any(it.get("/Encoding") == "/Identity-V" for it in values)
        descriptor = objects[below["/FontDescriptor"]]["value"]
        if "/FontFile2" in descriptor:
            data, numbers = readers.stream(objects, descriptor["/FontFile2"])[0], range(65536)
            if below["/CIDToGIDMap"] != "/Identity":
                data_of_map = readers.stream(objects, below["/CIDToGIDMap"])[0]
                numbers = [fonts.u16(data_of_map, at) for at in range(0, len(data_of_map), 2)]
        else:
            cff = readers.stream(objects, descriptor["/FontFile3"])[0]
            tables = [("CFF ", cff), ("head", source_tables["head"])]
            numbers = {cid: glyph for glyph, cid in enumerate(Face(made.font(tables)).cids(65536))}
            data = made.font([*tables, ("maxp", made.u16s(0, 0x5000, len(numbers)))], b"OTTO")
        self.glyph, self.program = numbers, HarfBuzz(fonts.put(path + ".font", data))

    def drawn(self, operators, thousandth):
        """The outlines that a run draws, and the end of the pen."""
        found = []
        codes, end = placed(operators, [it[0] for it in self.columns] if self.is_vertical else self.widths)
        for code, at, rise in codes:
            x, y = (-self.columns[code][1], at - self.columns[code][2]) if self.is_vertical else (at, rise)
            found += moved(self.program.drawn(self.glyph[code]), x, y, thousandth)
        return found, end


def faults_of_places(line, operators, path):
    """Which runs draw otherwise than the shaper says."""
    tables = fonts.tables_of(fonts.content(line.font))
    source, embedded = HarfBuzz(line.font), Embedded(path, tables)
    source.thousandth = 1000 / fonts.u16(tables["head"], 18)
    for run, text in zip(line.runs, operators):
        (ours, end), (theirs, pen) = embedded.drawn(text, source.thousandth), run.drawn(source)
        far = path_distance(ours, theirs)
        if far is None:
            yield f"{run.text}: other outlines"
        elif max(far, abs(end - pen)) > 0.500001:
            yield f"{run.text}: {far:.3f} thousandths aside, {abs(end - pen):.3f} at the end"


def faults_of_picture(line, path):
    """What MuPDF draws otherwise than of the glyphs alone."""
    glyphs, (x, y), scale, shows = [it for run in line.runs for it in run.glyphs], line.start, SIZE / line.units, []
    font = calls().pdf_font(fonts.content(line.font), [(it.codepoint, "") for it in glyphs], rights="held", hinting=False)
    for it, code in zip(glyphs, font.codes):
        shows.append(f"1 0 0 1 {x + it.x_offset * scale:.4f} {y + it.y_offset * scale:.4f} Tm {font.string([code]).decode()} Tj\n")
        x, y = x + it.x_advance * scale, y + it.y_advance * scale
    alone = fonts.put(f"{path}.alone.pdf", archival(*font.objects(FIRST), f"BT /F0 {SIZE} Tf\n{''.join(shows)}ET", line.box))
    has, wants = (readers.drawn("MuPDF", it, 144)[0][0] for it in (path, alone))
    far = readers.ink_apart(has, wants, 1)
    if far or readers.is_blank(has):
        yield f"{far} pixels of ink aside" + " (blank)" * readers.is_blank(has)


# ---- the texts

def plain(text):
    text = unicodedata.normalize("NFC", DIRECTION.sub("", text))
    return "".join(" " if unicodedata.category(it) == "Zs" else it for it in text).strip(" \t\r\n\f")


def grade(line, reader, text):
    """2, 1 or 0, and the text."""
    got, wanted = plain(text), line.wanted(reader)
    got = re.sub(r"[\r\n]", "", got) if line.is_vertical else got
    return 2 if got in wanted else int(IGNORED.sub("", got) in {IGNORED.sub("", it) for it in wanted}), got


def compare_line(row, commands, room):
    """What a line is written as, but for what readers say of it; its report has the line."""
    report, path = Report(row["name"]), os.path.join(room, row["name"] + ".pdf")
    try:
        line = Line(row)
        operators, objects = line.write(path)
        runs, said = fonts.put(path + ".runs", "\n".join(it.numbers() for it in line.runs)), "".join(operators).encode() + objects
        if CANARY.is_due:
            CANARY.is_due, operators[0] = False, operators[0].replace("]TJ", "2]TJ", 1)
        found = [("file", it) for it in readers.faults_by_qpdf(path)] + [("places", it) for it in faults_of_places(line, operators, path)]
        found += [("picture", it) for it in faults_of_picture(line, path)]
        if not line.texts:
            report.counts.update(packed=line.packed, sheets=line.packed_sheet())
        for name, command in commands.items() if not line.texts else ():
            found += [("language", f"other bytes by {name}")] * (readers.ran(*command, line.font, runs, str(int(line.is_vertical))) != said)
            report.counts[name] += 1
        report.counts["lines"] += 1
        report.line, line.path = line, path
    except (readers.Unread, calls().Error, LookupError, ValueError, StopIteration) as error:
        found = [("not compared", repr(error))]
    for it in found:
        report.say(*it)
    return report


def read(lines, asked, programs, room, pool):
    """For the lines as they are here (the program is ""), and as programs make them: the program, the reader, the line, the grade and the text."""
    config, others = programs and writers.with_fonts(lines, room), [it for it in lines if not it.texts]

    def made(name):
        pages = writers.write(name, others, config, room) if name else [(it, it.path, 1) for it in lines]
        return [it[0] for it in pages], readers.joined([it[1:] for it in pages], os.path.join(room, f"of {name}.joined"))

    # (each program is started before a reader waits for it)
    files = {name: pool.submit(made, name) for name in ("", *programs)}
    pairs = [(name, reader) for name in files for reader in reversed(asked)]
    for (name, reader), texts in zip(pairs, pool.map(lambda it: readers.texts_by(it[1], files[it[0]].result()[1]), pairs)):
        of = files[name].result()[0]
        if len(texts) != len(of):
            raise readers.Unread(f"{reader} finds {len(texts)} pages of {len(of)} in what {name or 'this library'} makes")
        for line, text in zip(of, texts):
            yield name, reader, line, *grade(line, reader, text)


# The driver of each language.
DRIVERS = {"rust": lambda: [build.driver("generated", "text", "--features", "subsetter/pdf")], "c": lambda: [build.gcc("text.c", f"-I{build.ROOT}/bindings/c", build.library()[:-2] + "a", to="text_c")],
           "js": lambda: ["node", os.path.join(build.DRIVERS, "text.mjs"), build.wasm()]}


def main():
    words = reports.words(lines=(1000, 2), by=("rust,c,js", ""), skip=("", ",".join(writers.WRITERS)))
    rows, asked = list(rows_of(words)), list(readers.TEXTS)[:2 if words.short else None]
    fonts.install(["libharfbuzz-bin", *readers.PACKAGES, *([] if words.short else readers.PDFBOX + readers.PDFJS), *(it["package"] for it in rows)])
    commands, programs, missing, left = {it: DRIVERS[it]() for it in words.by.split(",") if it not in ("", "python")}, *writers.there(words.skip.split(",")), Report("readers")
    for name in missing:
        left.say("left out", name)
    calls()
    with tempfile.TemporaryDirectory(prefix="text-") as room, concurrent.futures.ThreadPoolExecutor(words.jobs) as pool:
        found = reports.beside(words, compare_line, [(it, commands, room) for it in rows])
        lines = [it.line for it in found if hasattr(it, "line")]
        if 0 < len(found) < len(rows):
            left.say("time", f"it ended after {len(found)} of {len(rows)} lines")
        judged = pool.submit(readers.preflight, [it.path for it in lines if not words.short], room)
        for name, reader, line, came, got in read(lines, asked, programs, room, pool):
            left.counts.update({(name or line.script, reader, it): came > least for least, it in enumerate(("near", "exact"))})
            left.counts[name or line.script] += reader == asked[0]
            if not name and came < line.floor[reader]:
                left.say(reader, f"{line.name}: {came}, not {line.floor[reader]}: {got!r}")
            elif not name and came > line.floor[reader]:
                print(f"{line.name}: {reader} {came}, more than {line.floor[reader]}", flush=True)
        for line, faults in zip(lines, judged.result()):
            for it in faults:
                left.say("PDF/A-1b", f"{line.name}: {it}")
    counts = reports.total([*found, left])
    if counts["lines"] > 50 and counts["packed"] > PACKED * counts["sheets"]:
        left.say("bytes", f"{counts['packed']} of fonts and pages, and {counts['sheets']} of sheets")

    def said(reader, scripts):
        exact, near = (sum(counts[script, reader, it] for script in scripts) for it in ("exact", "near"))
        return f"{exact} ({near})" if near > exact else f"{exact}"

    scripts = list(dict.fromkeys(it["script"] for it in rows))
    print("\n".join([f"| Script | Lines | {' | '.join(asked)} |", "|---|---:|" + "---:|" * len(asked),
                     *(f"| {name} | {counts[name]} | {' | '.join(said(it, [name]) for it in asked)} |" for name in [*scripts, *programs])]))
    by_all = ", ".join(f"{said(it, scripts)} by {it}" for it in asked)
    others = "".join(f"; by the same of {counts[name]} lines of {name} {', '.join(said(it, [name]) for it in asked)}" for name in programs)
    same = "".join(f"; the same bytes of {counts[name]} lines by {name}" for name in commands)
    reports.end([*found, left], counts["lines"], f"{counts['lines']} lines of {len(scripts)} kinds of text, exact (or near) {by_all}{others}{same}; {counts['packed'] / (counts['sheets'] or 1):.3f} of the bytes of sheets{f'; {len(judged.result())} files valid as PDF/A-1b' if not words.short else ''}")
