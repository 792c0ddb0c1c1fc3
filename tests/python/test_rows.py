"""Each worked row, by the calls for subsets and by those for PDF."""

import re

import pytest
import subsetter
from common import ERRORS as STATUSES
from common import changed, hexadecimal, made, numbers, pdf_rows, raised, read_rows, rows_of

ROWS, FONTS, TEXTS = read_rows()
KINDS = {"TrueType": "TrueType", "CFF": "CIDFontType0C", "OpenType": "OpenType"}
OPTIONS = {
    "direction=Vertical": {"vertical": True}, "codes=Source": {"codes": "source"}, "codes=EachText": {"codes": "each_text"},
    "bounds=Kept": {"bounds": "kept"}, "program=OpenType": {"program": "opentype"}, "rights=Held": {"rights": "held"},
    "cid_set": {"cid_set": True},
}
ERRORS = {"NotPermitted": subsetter.NotPermitted, "TextTooLong": subsetter.InvalidText}


def answer(call, *arguments, **choices):
    try:
        found = call(*arguments, **choices)
    except subsetter.Error as error:
        return type(error).__name__, str(error).partition(": ")[0]
    return found if isinstance(found, bytes) else tuple(found)


def test_there_are_rows():
    assert len(ROWS) > 450 and len(FONTS) > 100 and len(TEXTS) == 15 and len(pdf_rows()) >= 20
    assert len(rows_of("kinds")) > 20 and len(rows_of("characters")) > 10 and len(rows_of("reasons")) > 35 and len(rows_of("runs")) > 30


@pytest.mark.parametrize("row", ROWS, ids=lambda row: row.name)
def test_row(row):
    call = getattr(subsetter, row.call)
    if 0 in (row.choices.get("tokens"), row.choices.get("depth")):
        with pytest.raises(ValueError):
            call(row.font, row.glyphs, row.index, **row.choices)
        return
    assert answer(call, row.font, row.glyphs, row.index, **row.choices) == row.wanted
    usual = {"hinting": True, "names": True, "glyph_names": True, "tokens": None, "depth": None, "most_bytes": None, "coordinates": None}
    assert answer(call, glyphs=iter(row.glyphs), data=row.font, index=row.index, **{**usual, **row.choices}) == row.wanted
    if row.index == 0:
        assert answer(call, row.font, row.glyphs, **row.choices) == row.wanted


def text_of(word):
    return "".join(chr(int(it, 16)) for it in word.split(",") if it)


def shown_in(words):
    pairs = [it.split(":") for it in words]
    return [(None if glyph == "-" else int(glyph), text_of(text)) for glyph, text in pairs]


def pdf_font(row):
    choices = {"hinting": False}
    for word in row["options"].split():
        choices.update(OPTIONS[word])
    if row["coordinates"] != "-":
        choices["coordinates"] = {it[:4]: float(it[5:]) for it in row["coordinates"].split(",")}
    return subsetter.pdf_font(made(row["font"]), shown_in(row["shown"].split()), **choices)


def words(items):
    return " ".join(map(str, items))


def fields(font):
    """The parts of an answer as a row writes them."""
    values, permission = font.descriptor, font.permission
    found = {
        "kind": KINDS[font.kind], "program": font.program.hex(), "glyph_count": font.glyph_count, "cids": words(font.cids),
        "codes": words(font.codes), "is_said": words(map(int, font.text_is_mapped)), "widths": words(font.widths),
        "default_width": font.default_width, "name": values.font_name, "flags": values.flags, "bounds": words(values.bounds),
        "angle": f"{values.italic_angle:g}", "ascent": values.ascent, "descent": values.descent, "cap_height": values.cap_height,
        "x_height": "-" if values.x_height is None else values.x_height, "stem_v": values.stem_v, "font_weight": values.font_weight,
        "permission": f"{permission.usage} subsetting {permission.subsetting:d} outlines {permission.outlines:d}",
        "to_unicode": font.to_unicode.decode(), "cid_set": "-" if font.cid_set is None else font.cid_set.hex(),
    }
    if font.columns is not None:
        found["columns"] = words([f"{it.advance},{it.x},{it.y}" for it in font.columns] + ["-"] * (font.glyph_count - len(font.columns)))
    if font.default_column is not None:
        found["dw2"] = words(font.default_column)
    if font.encoding is not None:
        found["encoding"] = font.encoding.decode()
    return {name: str(value) for name, value in found.items()}


def wanted_objects(row, font):
    """The objects of a row from number 4 on, with the streams of the font."""
    streams = [it for it in (font.program, font.to_unicode, font.cid_set, font.encoding) if it is not None]
    found, offsets = b"", []
    for place, dictionary in enumerate(row["object"]):
        offsets.append(len(found))
        stream = b"stream\n" + streams[place - 3] + b"\nendstream\n" if place >= 3 else b""
        found += f"{place + 4} 0 obj\n{dictionary}\n".encode() + stream + b"endobj\n"
    return found, offsets


@pytest.mark.parametrize("row", pdf_rows(), ids=lambda row: row["row"])
def test_pdf_row(row):
    if "error" in row:
        with pytest.raises(ERRORS[row["error"]]):
            pdf_font(row)
        return
    font = pdf_font(row)
    names = set(fields(font)) | {"columns", "dw2", "encoding"}
    assert fields(font) == {name: value for name, value in row.items() if name in names}
    assert font.objects(4) == wanted_objects(row, font)
    assert font.encoding_name is None if font.encoding is None else f"/CMapName /{font.encoding_name} def" in row["encoding"]
    line, grid = font.sheet(), font.sheet("grid")
    assert line == font.sheet("line") and font.objects(5).bytes in line
    assert line.startswith(b"%PDF-1.7\n") and line.endswith(b"%%EOF\n")
    assert b"[0 0 595 842]" in grid and b"[0 0 595 842]" not in line
    assert (b"/ActualText" in line) == (not all(font.text_is_mapped))


@pytest.mark.parametrize("name, font, face, glyphs, status, kinds, pdf", [row[1:] for row in rows_of("kinds")], ids=[row[1] for row in rows_of("kinds")])
def test_kinds(name, font, face, glyphs, status, kinds, pdf):
    wanted = (STATUSES[int(status)], TEXTS[int(status)]) if status != "0" else tuple(tuple(it.split("+")) for it in kinds.split(",") if it != "-")
    assert answer(subsetter.kinds_of, hexadecimal(font), numbers(glyphs), int(face)) == wanted
    if face == "0":
        assert answer(subsetter.kinds_of, hexadecimal(font), iter(numbers(glyphs))) == wanted
    if pdf != "0":
        assert answer(subsetter.pdf_font, hexadecimal(font), [(0, "")]) == (STATUSES[int(pdf)], TEXTS[int(pdf)])


@pytest.mark.parametrize("name, font, face, missing, entries", [(*row[1:5], shown_in(row[5:])) for row in rows_of("characters")])
def test_characters(name, font, face, missing, entries):
    given = [made(font), "".join(text for _, text in entries)] + ([int(face)] if face != "0" else [])
    if missing == "NoCmap":
        assert type(raised(subsetter.glyphs_of, *given)) is subsetter.NoCmap
        return
    found = subsetter.glyphs_of(*given)
    assert (found, found.missing) == ([it for it in entries if it[0] is not None], numbers(missing))


@pytest.mark.parametrize("row", rows_of("reasons"), ids=" ".join)
def test_reasons(row):
    _, call, font, face, change, weight, option, glyph, _, *message = row
    options = {"tokens=5": {"tokens": 5}, "names=no": {"names": False}, "most_bytes=9": {"most_bytes": 9}}
    choices = {**({} if face == "0" else {"index": int(face)}), **options.get(option, {})}
    if "_at" in call or weight != "-":
        choices["coordinates"] = {} if weight == "-" else {"wght": int(weight)}
    glyphs = range(65536) if glyph == "all" else [int(glyph)]
    given = {"pdf_font": [[(it, "") for it in glyphs]], "glyphs_of": "A", "text": []}.get(call, [glyphs])
    error = raised(getattr(subsetter, {"text": "PdfText"}.get(call, call.replace("_at", ""))), changed(font, change), *given, **choices)
    # (after it is what the caller can do)
    assert re.sub(": (if you hold|coordinates=).*", "", str(error or "-")) == " ".join(message)


def items_in(words):
    for glyph, text, places in (word.split(":") for word in words):
        first, _, last = text.partition("..")
        each = map(chr, range(int(first, 16), int(last, 16) + 1)) if last else [None if text == "-" else text_of(text)]
        yield from ((int(glyph), it, *[*map(int, places.split(",")), 0, 0, 0][:4]) for it in each)


def test_runs():
    rows = rows_of("runs")
    firsts = [place for place, row in enumerate(rows) if row[0] == "text"]
    for first, end in zip(firsts, [*firsts[1:], len(rows)]):
        _, font, choice, widths, glyphs = rows[first]
        name, _, weight = font.partition("@")
        order, at = "logical" if choice == "logical" else "visual", {"wght": int(weight)} if weight else None
        text = subsetter.PdfText(made(name), coordinates=at, vertical=choice == "vertical", order=order, own_glyphs=choice == "own", rights="held")
        for _, direction, *words in rows[first + 1:end]:
            items, wanted = words[:words.index("=")], " ".join(words[words.index("=") + 1:])
            try:
                run = text.run(items_in(items), direction)
                found = f"{run.advance} {run.decode()}".replace("\n", "~")
            except subsetter.Error as error:
                found = type(error).__name__
            assert wanted in (found, "*")
        made_font = text.font()
        assert (made_font.widths, made_font.cid_to_gid_map) == (numbers(widths), b"".join(it.to_bytes(2, "big") for it in numbers(glyphs)) or None)
