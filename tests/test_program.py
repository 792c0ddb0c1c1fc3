"""The program `subset_font`: its rows, what its PDFs show, sizes at both sides of a limit, and what is written of it.

    SUBSET_FONT=FILE /usr/bin/python3 -m pytest -q tests/test_program.py

Without SUBSET_FONT it is the build by Cargo in out/cargo.
"""
import difflib
import hashlib
import itertools
import json
import re
import subprocess

import pytest
import support
from support import DATA, ROOT, SYSTEM, fonts, read, remove, run, tables_of

# ---- rows

# New fonts by their names: each is that of the first row that has its name. One is worked out by hand.
NEW = {"simple 2": fonts()["simple_2"]}
# Rows that end otherwise on another system, by their words.
OTHERWISE = {"windows": {
    "simple simple 0 2": "no file takes the name of one that is open, as IN is: status 3, and IN is as it was",
    "/dev/stdin out 0 2": "a name of Unix: status 3",
    "simple /dev/stdout 0 2": "the same: the font goes to no stream of the program's",
    "--json --text Ax small /dev/stdout 0": "the same",
    'simple "\\xff" 0 2': "words are of 16 bits there, and wine makes one of any byte"}}.get(SYSTEM, {})


def known(name, font):
    """The bytes of a new font's name."""
    if name not in NEW:
        assert font and support.is_whole(font), f"the new font {name} isn't whole"
        NEW[name] = font
    return NEW[name]


def is_message(row, got):
    """Whether standard error is as a row has it. Windows has words and numbers of its own for the system's reason."""
    if row.has_more:
        more = got[len(row.err):]
        return got.startswith(row.err) and more.count(b"\n") == 1 and more.startswith((b"expected: ", b"see subset_font --help\n", b"did you mean "))

    def is_line(line, wanted):
        numbers = [re.fullmatch(rb".+ \(os error (\d+)\)", it) for it in (wanted, line)]
        return line == wanted or all(numbers) and int(numbers[1][1]) in support.WINDOWS_NUMBERS.get(int(numbers[0][1]), ())
    return got == row.err or SYSTEM == "windows" and len(got.split(b"\n")) == len(row.err.split(b"\n")) and all(map(is_line, got.split(b"\n"), row.err.split(b"\n")))


def differences(row, room):
    """What a run does otherwise than its row has it."""
    text = b" ".join([row.line.encode(), row.stdin, *row.files.values()])
    before = {name: font for name, font in fonts().items() if name.encode() in text} | row.files
    for name, data in before.items():
        (room / name).write_bytes(data)
    status, out, err = run(row.words, room, input=row.stdin)
    after = {it.name: read(it) for it in room.iterdir()}
    wanted = before | {name: known(font, after.get(name)) for name, font in row.after.items()}
    new = NEW.get(row.out_font) if row.out_font else after.get("out", b"")
    wanted_out, row.err = (it.replace(b"@new@", b"%d" % len(new or b"")) for it in (row.out, row.err))
    found = [f"status {status}, wanted {row.status}"] * (status != row.status)
    if out != (new if row.out_font else wanted_out):
        found.append(f"standard output {out[:300]!r}, wanted {(new if row.out_font else wanted_out)[:300]!r}")
    if not is_message(row, err):
        found.append(f"standard error {err[:300]!r}, wanted {row.err!r}")
    found += [f"the file {it} has {after.get(it, b'')[:60]!r} (or isn't there)" for it in sorted(after.keys() | wanted.keys()) if after.get(it) != wanted.get(it)]
    if row.line in OTHERWISE:
        return [] if found and status in range(4) else [f"status {status}, listed for {SYSTEM} as otherwise"]
    return found


@pytest.mark.parametrize("path", support.row_files(), ids=lambda it: it.stem)
def test_rows(path, tmp_path):
    found, rows = [], [it for it in support.rows(path) if not it.pdf]
    for number, row in enumerate(rows):
        (tmp_path / str(number)).mkdir()
        found += [f"{row.where}: {row.line}: {it}" for it in differences(row, tmp_path / str(number))]
    assert not found, "\n".join(found)


# ---- PDFs

def objects_of(page):
    """The values of a PDF's objects, by the offsets of its cross-reference table (ISO 32000-1, 7.5)."""
    start = re.search(rb"startxref\n(\d+)\n%%EOF\n\Z", page)
    assert start and page.startswith(b"%PDF-1.7\n")
    table = page[int(start[1]):]
    count = int(re.match(rb"xref\n0 (\d+)\n0000000000 65535 f \n", table)[1])
    rows = [table[table.index(b"f \n") + 3 + 20 * k:][:20] for k in range(count - 1)]
    assert all(row[10:] == b" 00000 n \n" for row in rows)
    heads = [(b"%d 0 obj\n" % (k + 1), page[int(row[:10]):]) for k, row in enumerate(rows)]
    assert all(at.startswith(head) for head, at in heads)
    return {k + 1: at[len(head):at.index(b"\nendobj\n")] for k, (head, at) in enumerate(heads)}


def stream_of(value):
    return value[value.index(b"stream\n") + 7:][:int(re.search(rb"/Length (\d+)", value)[1])]


def what_is_shown(page):
    """Of a PDF of the program: its layout, the codes that its pages show, the encoding, their text by ToUnicode, the font program and the font's name."""
    objects = objects_of(page)
    one = [[it for it in objects.values() if re.search(key, it)] for key in (rb"/Type /Pages", rb"/Subtype /Type0", rb"/FontDescriptor /FontName")]
    assert [len(it) for it in one] == [1, 1, 1]
    pages, font, descriptor = (it[0] for it in one)

    def led(value, key):
        return stream_of(objects[int(re.search(key + rb" (\d+) 0 R", value)[1])])
    strings = b"".join(it for page in objects.values() if b"/Type /Page " in page for it in re.findall(rb"<([0-9A-F]+)>(?=.*T[jJ]$)", led(page, rb"/Contents"), re.M))
    codes = [int(it, 16) for it in re.findall(b"....", strings)]
    texts = dict(re.findall(rb"<([0-9A-F]{4})> <([0-9A-F]*)>\n", led(font, rb"/ToUnicode").partition(b"endcodespacerange")[2]))
    text = "".join(bytes.fromhex(texts.get(b"%04X" % code, b"").decode()).decode("utf-16-be") for code in codes).replace("\u2060", "-")
    encoding = re.search(rb"/Encoding (/Identity-[HV]|\d+ 0 R)", font)[1].decode()
    shown = ("grid" if b"[0 0 595 842]" in pages else "line", codes, encoding if encoding.startswith("/") else "own", text)
    return shown, led(descriptor, rb"/FontFile2"), re.search(rb"/FontName /(\S+)", descriptor)[1].decode()


# Words of a run that the same run without a PDF hasn't.
OF_PDF = ("--allow-blank", "--vertical", "--pdf", "--codes", "--rights", "consecutive", "source", "text", "held", "page")


def compare_pdf(row, room):
    """A PDF shows what its row says, and all else is as without the PDF."""
    (room / "list").write_bytes(b"AB\n\rA")
    status, out, err = run(row.words, room)
    is_stream, to_stream = "--pdf -" in row.line, "-o -" in row.line
    page = out if is_stream else read(room / "page")
    shown, program, name = what_is_shown(page)
    assert run([*row.program, "--no-names", "--no-glyph-names", "-o", "program"], room)[0] == 0
    assert shown == row.pdf and program == read(room / "program")
    plain = [it for it in row.words if it not in OF_PDF and not (is_stream and it == "-")]
    has_out = "-o" in plain or "out" in plain
    font = out if to_stream else read(room / "out")
    remove(room / "out")
    base = run(plain if has_out else [*plain, "-o", "out"], room)
    printed = err if is_stream or to_stream else out
    if "--json" in row.words:
        assert json.loads(printed)["pdf"] == {"size": len(page), "font": name, "codes": row.pdf[1]}
        printed = printed[:printed.index(b',"pdf":')] + b"}\n"
    assert (status, printed) == (base[0], base[2] if to_stream else base[1])
    assert font == (None if not has_out else base[1] if to_stream else read(room / "out"))
    assert not list(room.glob("*.part*"))


def test_pdf_pages(fonts_room):
    rows = support.rows(DATA / "program" / "52-pdf-pages.txt")
    found = []
    for row in rows:
        remove(fonts_room / "page", fonts_room / "out")
        try:
            compare_pdf(row, fonts_room)
        except (AssertionError, TypeError, ValueError) as error:
            found.append(f"{row.where}: {row.line}: {error}")
    assert rows and not found, "\n".join(found)


def test_pdf_in_json(fonts_room):
    """The object has the PDF as its last member, and none where there is no PDF."""
    for further in ([], ["--widths", "--verbose"]):
        out = run(["shared", "--text", "AaB", "--pdf", "page", "--json", "--codes", "text", *further], fonts_room)[1]
        said, page = json.loads(out), read(fonts_room / "page")
        assert list(said)[-1] == "pdf" and (said["pdf"]["codes"], said["pdf"]["size"]) == ([1, 2, 0], len(page))
        assert re.fullmatch("[A-Z]{6}[+]Font", said["pdf"]["font"]) and b"/FontName /" + said["pdf"]["font"].encode() in page
    assert "pdf" not in json.loads(run(["shared", "--text", "A", "-o", "out", "--json"], fonts_room)[1])


def test_pdf_before_out(fonts_room):
    """Where OUT can't be written the PDF is whole, and no other file is there."""
    names = {it.name for it in fonts_room.iterdir()}
    status, out, err = run(["small", "--text", "AB", "--pdf", "page", "-o", "none/out"], fonts_room)
    assert (status, out, err.splitlines()[0]) == (3, b"", b"cannot write none/out")
    assert what_is_shown(read(fonts_room / "page")) and {it.name for it in fonts_room.iterdir()} == names | {"page"}


# ---- names of glyphs, and what is left out

# The SHA-256 of the 258 names of the Macintosh and of the 391 standard strings of CFF, with a blank between each two, by fontTools.
@pytest.mark.parametrize(("font", "count", "wanted"), [("macintosh", 258, "7d5ce664c91b4af71cab530e6f88cccde1b61fa48a601ba7f2c5ef03c8b7a824"),
                                                       ("strings", 391, "7dc84e7e04ff3cfdd2e8d323dfea6683fba9746851458447d63f66943e327562")])
def test_standard_names(fonts_room, font, count, wanted):
    names = [it.get("name") for it in json.loads(run(["--json", font, "-o", "out", "--gids", "*"], fonts_room)[1])["glyphs"]]
    assert names[count:] == [None] and hashlib.sha256(" ".join(names[:count]).encode()).hexdigest() == wanted


@pytest.mark.parametrize("options", [it for count in range(4) for it in itertools.combinations(("--no-names", "--no-hinting", "--no-glyph-names"), count)], ids=" ".join)
def test_left_out(fonts_room, options):
    run([*options, "named", "out", "0", "1"], fonts_room)
    old, new = fonts()["named"], tables_of(read(fonts_room / "out"))
    outline = tables_of(old)["glyf"][:20]
    assert ("name" in new) == ("--no-names" not in options)
    assert (new["post"][:4] == b"\0\3\0\0" and len(new["post"]) == 32) == ("--no-glyph-names" in options)
    assert new["glyf"].rstrip(b"\0") == (outline[:12] + bytes(2) + outline[17:] if "--no-hinting" in options else outline)


# ---- both sides of a limit

def truetype(glyf, offsets, more=""):
    """A font of outlines that a long `loca` of these offsets divides."""
    return support.font(f"""
    sfnt TrueType padded search=0,0,0
    table glyf
        {f"hex {glyf.hex()}" if glyf else ""}
    head indexToLocFormat=1
    table loca
        hex {b"".join(it.to_bytes(4, "big") for it in offsets).hex()}
{more}""")


def composite(components):
    """An outline of these glyphs."""
    parts = [(0x20 if k + 1 < len(components) else 0).to_bytes(2, "big") + glyph.to_bytes(2, "big") + b"\0\0" for k, glyph in enumerate(components)]
    return b"\xff\xff" + bytes(8) + b"".join(parts)


def chain(count):
    """`count` composites of one component, each of the glyph after it, and an empty glyph after them."""
    return b"".join(composite([glyph + 1]) for glyph in range(count)), [*range(0, 16 * count + 1, 16), 16 * count]


def with_cut_component(font):
    """The arguments of glyph 0 are words, of which the second is cut off."""
    return font[:71] + b"\1" + font[72:]


def crowd(last, one_byte):
    """One composite of each glyph from 1 to the last one, which are empty but for one that may have one byte."""
    glyf = composite(range(1, last + 1))
    return truetype(glyf + b"\0", [0, len(glyf), *(len(glyf) + (glyph + 1 >= one_byte) for glyph in range(last))])


def names(place, records, storage=b""):
    """A table `name` of strings (length, offset), whose storage begins at a place."""
    return b"".join(it.to_bytes(2, "big") for it in (0, len(records), place, *itertools.chain(*((3, 1, 0x409, 0, *it) for it in records)))) + storage


def with_names(table):
    """Three empty glyphs and a table `name`."""
    return truetype(b"", [0] * 4, f"    table name\n        hex {table.hex()}\n")


def one_charstring(charstring):
    """A font whose only glyph has this charstring."""
    return support.font(f"""
    sfnt CFF padded search=0,0,0
    table CFF
        CFFHeader 1 0 4 1
        at names INDEX
            text "A"
        at top INDEX
            DICT
                CharStrings @charstrings
        at strings INDEX
        at globals INDEX
        at charstrings INDEX
            hex {charstring.hex()}
""")


def stems(operands):
    """65,520 stems by 48 operands each, and as many more as half of these operands."""
    return (b"\x8b" * 48 + b"\1") * 2730 + b"\x8b" * operands + b"\1"


MALFORMED, NO_SUBSET, OVERFLOW, NO_CFF, NO_FONT = "malformed font", "subsetting of font failed", "overflow occurred", "processing CFF table failed", "unknown font kind"
SIMPLE, END, MASK = fonts()["simple"], b"\x0e", b"\x13" + b"\xaa" * 8191
STORAGE = bytes(79999) + b"\1"
TWO = names(30, [(40000, 0), (40000, 40000)], STORAGE)
LIMITS = {
    # The short format of `loca` reaches 131,070 bytes: glyph 1 has 65,535, and glyph 2 one less or as many. Only it pads them.
    "a short loca": (lambda: truetype(bytes(131069), [0, 0, 65535, 131069]), "1,2", "", {"glyf": bytes(131070), "loca": bytes.fromhex("0000 0000 8000 ffff")}),
    "a long loca": (lambda: truetype(bytes(131070), [0, 0, 65535, 131070]), "1,2", "", {"glyf": bytes(131070), "loca": bytes.fromhex("00000000 00000000 0000ffff 0001fffe")}),
    # A new string of `name` begins at most 65,535 bytes after the first one, and there are at most 5,460 records.
    "a string before 65535": (lambda: with_names(TWO), "", "", {"name": TWO}),
    "a string past 65535": (lambda: with_names(names(42, [(40000, 0), (40000, 40000), (39999, 0)], STORAGE)), "", NO_SUBSET, {}),
    "5,460 records": (lambda: with_names(names(0, [(1, 0)] * 5460)), "", "", {"name": names(6 + 12 * 5460, [(1, 0)] * 5460, b"\0")}),
    "5,461 records": (lambda: with_names(names(0, [(1, 0)] * 5461)), "", NO_SUBSET, {}),
    # All numbers are reached from one glyph, and the first fault on the way names the error.
    "a chain of 65,534": (lambda: truetype(*chain(65534)), "", "", {"glyf": chain(65534)[0]}),
    "a chain of 65,535": (lambda: truetype(*chain(65535)), "", OVERFLOW, {}),
    "a cut chain of 65,535": (lambda: with_cut_component(truetype(*chain(65535))), "", OVERFLOW, {}),
    # The components wait in ascending order and are taken from the end, so glyph 1 is taken last and has the last number.
    "a crowd of 65,534": (lambda: crowd(65534, 65535), "", "", {"glyf": composite(range(65534, 0, -1))}),
    "no number for glyph 1": (lambda: crowd(65535, 1), "", OVERFLOW, {}),
    "one byte of glyph 1, which is given": (lambda: crowd(65535, 1), "1", MALFORMED, {}),
    "one byte of glyph 2, which has the last number": (lambda: crowd(65535, 2), "", MALFORMED, {}),
    # 1,000,000 tokens, 65,535 stems, and a mask of a bit for each; one more of each, and a cut mask.
    "1,000,000 tokens": (lambda: one_charstring(b"\5" * 1000000), "", "", {}),
    "1,000,000 tokens with the end": (lambda: one_charstring(b"\5" * 999999 + END), "", "", {}),
    "1,000,001 tokens": (lambda: one_charstring(b"\5" * 1000000 + END), "", NO_CFF, {}),
    "65,535 stems": (lambda: one_charstring(stems(30) + END), "", "", {}),
    "65,536 stems": (lambda: one_charstring(stems(32) + END), "", NO_CFF, {}),
    "a mask of 8,192 bytes": (lambda: one_charstring(stems(30) + MASK + b"\xaa" + END), "", "", {}),
    "a mask of 8,191 bytes": (lambda: one_charstring(stems(30) + MASK), "", NO_CFF, {}),
    # `loca` whose offsets descend elsewhere, shared bytes, and a composite of itself.
    "descending offsets aside": (lambda: truetype(bytes(12), [0, 12, 0]), "0", "", {"glyf": bytes(12), "loca": bytes.fromhex("0000 0006")}),
    "descending offsets": (lambda: truetype(bytes(12), [0, 12, 0]), "1", MALFORMED, {}),
    "shared bytes": (lambda: truetype(bytes(12), [0, 12, 0, 12]), "2", "", {"glyf": bytes(24), "loca": bytes.fromhex("0000 0006 000c")}),
    "a composite of itself": (lambda: truetype(composite([1, 1, 1]), [0, 0, 28]), "1", "", {"glyf": composite([1, 1, 1]), "loca": bytes.fromhex("0000 0000 000e")}),
}


def subset(room, font, glyphs, *options):
    """The first line of standard error, and OUT."""
    (room / "in").write_bytes(font)
    (room / "list").write_text(glyphs)
    remove(room / "out")
    status, out, err = run(["--quiet", *options, "--gids-file", "list", "in", "out", "0"], room)
    new = read(room / "out")
    assert out == b"" and status == (0 if new is not None else 1) and (new is None or support.is_whole(new))
    return err.decode().partition("\n")[0], new


@pytest.mark.parametrize("name", LIMITS)
def test_limits(tmp_path, name):
    font, glyphs, wanted, tables = LIMITS[name]
    said, new = subset(tmp_path, font(), glyphs)
    found = tables_of(new) if new else {}
    assert said == wanted and [it for it in tables if found.get(it) != tables[it]] == []


def test_own_names(tmp_path):
    """At most 65,278 own names are kept: of 65,536 empty glyphs 65,535 each have a name of their own that isn't there."""
    font = support.font("""
    sfnt TrueType search=0,0,0
    table glyf
    head
    table loca
        u16 0*65537
    post version=2.0
        u16 65535*65536 # glyphNameIndex, in front of which is no numGlyphs of its own
""")
    assert [subset(tmp_path, font, it)[0] for it in ("0-65277", "0-65278", "0-65278,65535")] == ["", OVERFLOW, MALFORMED]


def test_sizes(tmp_path):
    """A font has no more bytes than it may; its composites alone have 4,800. A cut composite counts with all of its bytes."""
    font = truetype(*chain(300))
    size = len(subset(tmp_path, font, "")[1])
    said = [subset(tmp_path, font, "", "--limits", f"1000000,64,{it}")[0] for it in (size, size - 1, 4799, 0)]
    assert said == ["", OVERFLOW, OVERFLOW, OVERFLOW]
    assert subset(tmp_path, with_cut_component(font), "", "--limits", "1000000,64,0")[0] == MALFORMED


def test_cut(tmp_path):
    """A font that is cut has the error of the place: the first word, the records, the record of `glyf`, whose bytes end at 83."""
    said = [subset(tmp_path, SIMPLE[:length], "2")[0] for length in range(len(SIMPLE))]
    assert said == [NO_FONT if length < 4 or 60 <= length < 83 else MALFORMED for length in range(len(SIMPLE))]
    outside = support.font("""
    sfnt TrueType search=0,0,0
    table glyf
    table head
        record offset=4294967295 length=54
    table loca
        u32 0*2
""")
    assert subset(tmp_path, outside, "0")[0] == MALFORMED


def test_many_glyphs(tmp_path):
    """All glyphs that a face can have, by a file and by streams."""
    count = 65535
    font = truetype(bytes(12), [0] + [12] * count, f"    maxp1.0 version=1.0 numGlyphs={count}")
    (tmp_path / "in").write_bytes(font)
    lines = support.glyph_lines(*((k, k) for k in range(count)))
    for text in ("*", "0-65534", "\n".join(map(str, range(count)))):
        (tmp_path / "list").write_text(text)
        assert run(["--gids-file", "list", "in", "out", "0"], tmp_path) == (0, lines, b"")
    out = read(tmp_path / "out")
    assert support.is_whole(out) and run(["--gids-file", "list", "-", "-", "0"], tmp_path, input=font) == (0, out, lines)


# ---- what is written of the program

MANUAL = (ROOT / "docs" / "CLI.md").read_text(encoding="utf-8")
PAGE = ROOT / "crates" / "subset_font" / "subset_font.1"


def test_help_and_version(tmp_path):
    status, out, err = run(["--help"], tmp_path)
    wanted = (DATA / "help.txt").read_text(encoding="ascii")
    assert (status, err) == (0, b"") and out.decode() == wanted, "\n".join(difflib.unified_diff(wanted.split("\n"), out.decode().split("\n"), "tests/data/help.txt", "--help", lineterm=""))
    for words in (["-h"], ["--widths", "--help"], ["--widths", "-h", "in"], ["--help", "x"]):
        assert run(words, tmp_path) == (0, out, b"")
    version = (ROOT / "VERSION").read_text(encoding="ascii").split()[0]
    for words in (["--version"], ["--version", "--help"]):
        assert run(words, tmp_path) == (0, f"subset_font {version}, a port of the Rust crate subsetter 0.2.6\n".encode(), b"")


def test_manual_page():
    lint = subprocess.run(["mandoc", "-Tlint", "-W", "warning", PAGE], capture_output=True, text=True, check=False).stdout
    # (the page has no date, which would make each build another)
    assert [it for it in lint.splitlines() if "missing date" not in it] == []


def test_same_options():
    """The help, the manual page, docs/CLI.md, the completions and the list for the nearest option have the same options."""
    page, folder = re.sub(r"\\f[BIR]", "", PAGE.read_text(encoding="ascii")).replace("\\-", "-"), PAGE.parent / "completions"
    entries = {"--help": re.findall(r"^  (-\S.*?)(?:  .*)?$", (DATA / "help.txt").read_text(encoding="ascii"), re.M),
               "subset_font.1": re.findall(r"^\.TP\n(.*)$", page.partition(".SH OPTIONS")[2].partition(".SH EXIT STATUS")[0], re.M),
               "docs/CLI.md": re.findall(r"^\| (`-.*?) \|", MANUAL, re.M),
               "bash": re.findall(r'compgen -W "([^"]*)"', (folder / "subset_font.bash").read_text(encoding="ascii")),
               "zsh": re.findall(r"^    '(?:\([^)]*\))?(-[a-z-]+)\[", (folder / "_subset_font").read_text(encoding="ascii"), re.M)}
    options = {name: {word for it in found for word in re.findall(r"(?<![\w-])-[\w-]*", it)} - {"--"} for name, found in entries.items()}
    options["fish"] = {("-" if kind == "s" else "--") + name for kind, name in re.findall(r" -([sl]) (\S+)", (folder / "subset_font.fish").read_text(encoding="ascii"))}
    names = (ROOT / "crates" / "subset_args" / "src" / "options" / "names.rt").read_text(encoding="utf-8")
    nearest = set(re.findall(r'"(--[a-z-]+)"', re.search(r"pub const OPTIONS: .*?= \[(.*?)\];", names, re.S)[1]))
    wanted = options["--help"]
    assert len(wanted) == 32 and {name: it ^ wanted for name, it in options.items() if it != wanted} == {}
    assert nearest == {it for it in wanted if it.startswith("--")}


def test_first_lines():
    """docs/CLI.md lists the first line of each failure of the rows with its status, and no other."""
    entries = {line: int(status) for status, line in re.findall(r"^\| ([123]) `([^`]+)` \|", MANUAL, re.M)}

    def entry_of(line):
        return line if line in entries else next((it for it in entries if line.startswith(front := re.sub(r" ?(?:IN|OUT|\.\.)$", " ", it)) and front != it), line)
    failures = [it for path in support.row_files() for it in support.rows(path) if it.status != 0 and not it.line.startswith("--batch")]
    seen = {(entry_of(it.err.decode(errors="replace").partition("\n")[0]), it.status) for it in failures}
    # (no row can have these)
    assert seen | {("out of memory", 1), ("cannot write standard output", 3)} == set(entries.items())


def test_examples(tmp_path):
    """The words of each example are accepted: the run ends as IN can't be read."""
    found = re.findall(r"^(?:  )?(subset_font \S*(?:ttf|--no).*)$", (DATA / "help.txt").read_text() + PAGE.read_text().replace("\\-", "-"), re.M)
    found += [it for it in re.findall(r"`(subset_font [^`\[]*)`", MANUAL) if "--batch" not in it]
    assert len(found) >= 9
    for line in found:
        words = line.partition(" > ")[0].split(" ")[1:]
        named = next(it for it in words if it.endswith((".ttf", ".otf")))
        status, _, err = run(words, tmp_path)
        assert (status, err.splitlines()[0].decode()) == (3, f"cannot read {named}"), line


def shape(value):
    """The members of an object in their order, the first item of a list, and the sort of another value."""
    if isinstance(value, dict):
        return [(name, shape(it)) for name, it in value.items()]
    return [shape(it) for it in value[:1]] if isinstance(value, list) else "number" if type(value) in (int, float) else type(value).__name__


@pytest.mark.parametrize(("member", "words"), [("outlines", ["--axes", "--json", "instances"]), ("glyphs", ["--json", "--widths", "named", "out", "0", "1"]),
                                               ("pdf", ["--json", "small", "--text", "A", "--pdf", "page"])])
def test_objects(fonts_room, member, words):
    """The objects that docs/CLI.md shows have the members of the program's."""
    shown = [json.loads(it) for it in re.findall(r"`(\{[^`]*\})`", MANUAL)] + [json.loads("{" + it + "}") for it in re.findall(r"`(\"pdf\":[^`]*)`", MANUAL)]
    wanted = next(it for it in shown if next(iter(it)) == member)
    made = json.loads(run(words, fonts_room)[1])
    assert shape({"pdf": made["pdf"]} if member == "pdf" else made) == shape(wanted)
