"""Runs of shaped text, the font for them, and what the calls refuse."""

import pickle
import re
from types import SimpleNamespace

import pytest
import subsetter
from common import changed, made, raised

with open("/usr/share/fonts/truetype/dejavu/DejaVuSans.ttf", "rb") as file:
    DEJAVU = file.read()
TTF, NAMES = made("made.ttf"), ("x_advance", "y_advance", "x_offset", "y_offset")
# What hb-shape has of two lines in that font: glyph, cluster and NAMES.
LATIN = "office q\u0304x", [(82, 0, 1253, 0, 0, 0), (5044, 1, 1980, 0, 0, 0), (70, 4, 1126, 0, 0, 0), (72, 5, 1260, 0, 0, 0),
                            (3, 6, 651, 0, 0, 0), (84, 7, 1300, 0, 0, 0), (693, 7, 0, 0, -165, 0), (91, 9, 1212, 0, 0, 0)]
ARABIC = "\u0633\u0644\u0627\u0645 \u0644\u0627", [(5365, 5, 1168, 0, 0, 0), (3, 4, 651, 0, 0, 0), (1390, 3, 1268, 0, 0, 0),
                                                   (5366, 1, 1222, 0, 0, 0), (5293, 0, 1716, 0, 0, 0)]


def arrays(rows):
    """Objects with the fields of uharfbuzz's."""
    return ([SimpleNamespace(codepoint=it[0], cluster=it[1], flags=0) for it in rows], [SimpleNamespace(**dict(zip(NAMES, it[2:]))) for it in rows])


def test_lines_and_their_font():
    """(examples/shaped.py writes such lines into a PDF, and tests/test_documents.py reads it back.)"""
    with subsetter.PdfText(DEJAVU, own_glyphs=False) as text:
        lines = [text.shaped(line, *arrays(rows), direction) for (line, rows), direction in ((LATIN, "ltr"), (ARABIC, "rtl"))]
        font, codes = text.font(cid_set=True, hinting=False), text.codes
    codes_shown = [int(it, 16) for string in re.findall(b"<([0-9A-F]+)>", lines[1]) for it in re.findall(b"....", string)]
    assert b"/ActualText <FEFF007103040078>" in lines[0] and "".join(codes[code - 1][1] for code in codes_shown) == ARABIC[0][::-1]
    assert codes[:4] == [(82, "o"), (5044, "f"), (None, "f"), (None, "i")] and codes[8] == (693, "\u0304")
    assert font.string([1, 2]) == b"<00010002>" and font.widths[:5] == [600, 612, 967, 0, 0] and font.codes == []
    assert len(font.cid_to_gid_map) == 2 + 2 * len(codes) == 2 * font.glyph_count and "cid_to_gid_map" in {it.role for it in font.parts(range(1, 1 + font.part_count))}
    assert b"".join(b"%d 0 obj\n%s\nendobj\n" % (it.number, it.value) for it in font.parts(range(5, 5 + font.part_count))) == font.objects(5).bytes
    assert pickle.loads(pickle.dumps(font)).objects(5) == font.objects(5)


def test_a_sheet():
    """Each run is on a page of its own, which is as long."""
    with subsetter.PdfText(DEJAVU) as text:
        runs = [text.shaped(line, *arrays(rows), direction, 36) for (line, rows), direction in ((LATIN, "ltr"), (ARABIC, "rtl"))]
        sheet = text.sheet(iter(runs), hinting=False)
        for wrong in (runs[0], [bytes(runs[0])], 5):
            assert type(raised(text.sheet, wrong)) is TypeError
        assert str(raised(text.sheet, [text.run([(82, "o")])])) == "the size of a run is 12, and 36 on a sheet"
        assert str(raised(subsetter.PdfText(DEJAVU).sheet, runs)) == "a run is of another PdfText"
        assert str(raised(text.font().sheet)) == "the font of a PdfText has no entries: PdfText.sheet shows runs"
        assert b"/Count 0" in text.sheet([])
    assert [it.advance for it in runs] == [4288, 2942] and pickle.loads(pickle.dumps(runs[0])).advance == 4288
    assert re.findall(rb"/MediaBox \[0 0 (\d+) 144\]", sheet) == [b"227", b"178"] and all(it in sheet for it in runs)
    columns = subsetter.PdfText(DEJAVU, vertical=True)
    run = columns.run([(82, "o")], size=36)
    assert run.advance == -1000 and b"/MediaBox [0 0 144 108]" in columns.sheet([run])


def test_items_are_what_is_shaped():
    text = subsetter.PdfText(DEJAVU)
    wanted = text.shaped("office", *arrays(LATIN[1][:4]))
    assert text.run([(82, "o"), (5044, "ffi"), (70, "c"), (72, "e", 1260, 0, 0, 0)], "ltr", 9.5) == wanted
    assert (text.units_per_em, text.advances([82, 3])) == (2048, [612, 318])
    for units, numbers in (("utf32", (0, 1, 2)), ("utf16", (0, 1, 3)), ("utf8", (0, 2, 6))):
        infos, positions = arrays([(82, number, 1253, 0, 0, 0) for number in numbers])
        assert text.shaped("\xe9\U0001d4b3a", infos, positions, units=units) == text.run([(82, "\xe9"), (82, "\U0001d4b3"), (82, "a")])
    columns = subsetter.PdfText(DEJAVU, 0, {}, vertical=True)
    assert columns.run([(82, "o")]) == b"[<0001>]TJ\n" and columns.font().columns is not None and type(raised(columns.run, [], "ltr")) is ValueError


def test_a_font_with_more_outlines_than_maxp_counts():
    for count, said in (("0000", "the font has no glyph"), ("0003", "the font's glyphs are 0 to 2")):
        for vertical in (False, True):
            error = raised(subsetter.PdfText(changed("made.ttf", f"maxp+4={count}"), vertical=vertical).run, [(9, "H")])
            assert (type(error), str(error)) == (subsetter.InvalidText, f"invalid text: glyph 9: {said}")


def test_a_closed_text():
    data = bytearray(TTF)
    text = subsetter.PdfText(data)
    assert type(raised(data.append, 0)) is BufferError
    text.close()
    data.append(0)
    for call in (lambda: text.run([]), lambda: text.shaped("", [], []), text.font, lambda: text.sheet([]), lambda: text.codes, lambda: text.advances([1])):
        assert type(raised(call)) is ValueError and str(raised(call)) == "the text is closed"


@pytest.mark.parametrize("kind, message, call", [
    (subsetter.InvalidText, "invalid text: the first item continues a cluster, as its text is None", lambda text: text.run([(1, None)])),
    (subsetter.InvalidText, "invalid text: glyph 12: the font's glyphs are 0 to 11", lambda text: text.run([(12, "A", 9, 0, 0, 0)])),
    (subsetter.InvalidText, "invalid text: y_advance is 9, and 0 in horizontal text", lambda text: text.run([(1, "A", 9, 9, 0, 0)])),
    (subsetter.InvalidText, "invalid text: a glyph or the pen is further away than 32 bits count",
     lambda text: text.run([(1, "A", 2**31 - 1, 0, 2**31 - 1, 0)] * 3)),
    (subsetter.InvalidText, "invalid text: a text that needs an ActualText has more than 16382 UTF-16 units", lambda text: text.run([(0, "A" * 16_383)])),
    (subsetter.InvalidText, "invalid text: a text that needs an ActualText has more than 16382 UTF-16 units",
     lambda text: text.shaped("A" + "\U0001d4b3" * 8_192, *arrays([(1, 0, 9, 0, 0, 0), (0, 1, 9, 0, 0, 0)]))),
    (subsetter.InvalidText, "invalid text: cluster 0 comes after cluster 1, and direction is ltr",
     lambda text: text.shaped("AB", *arrays([(1, 1, 9, 0, 0, 0), (1, 0, 9, 0, 0, 0)]))),
    (subsetter.InvalidText, "invalid text: cluster 1 comes after cluster 0, and direction is rtl",
     lambda text: text.shaped("AB", *arrays([(1, 0, 9, 0, 0, 0), (1, 1, 9, 0, 0, 0)]), "rtl")),
    (subsetter.InvalidText, "invalid text: cluster 1 isn't where a character begins in a text of 3 units",
     lambda text: text.shaped("\xe9A", *arrays([(1, 0, 9, 0, 0, 0), (1, 1, 9, 0, 0, 0)]), units="utf8")),
    (subsetter.InvalidText, "invalid text: cluster 3 isn't where a character begins in a text of 3 units",
     lambda text: text.shaped("\U0001d4b3A", *arrays([(1, 0, 9, 0, 0, 0), (1, 3, 9, 0, 0, 0)]), units="utf16")),
    (subsetter.InvalidText, "invalid text: U+D800 is an unpaired surrogate", lambda text: text.shaped("\ud800", *arrays([(1, 0, 9, 0, 0, 0)]), units="utf8")),
    (subsetter.MalformedFont, "malformed font: glyph 12: the font's glyphs are 0 to 11", lambda text: text.run([(12, "A")])),
    (subsetter.MalformedFont, "malformed font: glyph 12: the font's glyphs are 0 to 11", lambda text: text.advances([1, 12])),
    (ValueError, 'items are (glyph, text) or (glyph, text, x_advance, y_advance, x_offset, y_offset), as [(36, "fi"), (5, None)]', lambda text: text.run([(1, "A", 5)])),
    (ValueError, "x_offset is from -2147483648 to 2147483647, and not 2147483648", lambda text: text.run([(1, "A", 0, 0, 2**31, 0)])),
    (TypeError, "a text is a str, and no bytes", lambda text: text.run([(1, b"A")])),
    (TypeError, "a PdfText can't be copied or pickled; its fonts can", pickle.dumps),
    (TypeError, "infos have codepoint and cluster, and positions, as many, x_advance, y_advance, x_offset and y_offset, as uharfbuzz's "
     "buffer.glyph_infos and buffer.glyph_positions, and no NoneType", lambda text: text.shaped("A", [], None)),
    (ValueError, "direction is one of ltr, rtl, and not 'ttb'", lambda text: text.run([], "ttb")),
    (ValueError, "size is from 0 to 4294967.295, and not -1", lambda text: text.run([], size=-1)),
    (TypeError, "size is a number, and no str", lambda text: text.run([], size="12")),
    (TypeError, "units is one of utf8, utf16, utf32, and no int", lambda text: text.shaped("A", *arrays([(1, 0, 9, 0, 0, 0)]), units=8)),
    (ValueError, "a code is from 0 to 65535, and not 65536", lambda text: text.font().string([65536])),
])
def test_what_is_refused(kind, message, call):
    text = subsetter.PdfText(TTF)
    text.run([(1, "A")])
    error = raised(call, text)
    assert type(error) is kind and str(error) == message and text.codes == [(1, "A")]
    assert issubclass(subsetter.Overfull, OverflowError) and type(raised(subsetter.PdfText, TTF, order="reading")) is ValueError
