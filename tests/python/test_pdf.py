"""What the calls for PDF take and refuse, and what an answer is besides what the rows have of it."""

import binascii
import copy
import ctypes
import pickle
import re
import warnings
import zlib

import pytest
import subsetter
from common import ROOT, made, raised, read_rows

FONTS = read_rows()[1]
TTF, SHOWN = made("made.ttf"), [(1, "A"), (5, "fi"), (1, "a")]


def test_glyphs_of_a_text():
    assert subsetter.glyphs_of(memoryview(TTF), "") == []
    error = raised(subsetter.glyphs_of, TTF, "A\tz", missing="error")
    assert (type(error), str(error), error.missing) == (subsetter.MissingCharacters, "missing characters: U+0009 at 1, U+007A at 2", [1, 2])
    assert subsetter.pdf_font(TTF, iter(subsetter.glyphs_of(TTF, "AH\ufb01\U0001f600\xc1zA"))).codes == [1, 2, 3, 4, 5, 0, 1]
    assert type(raised(subsetter.glyphs_of, b"no", "A")) is subsetter.UnknownKind
    assert subsetter.glyphs_of(TTF.replace(b"glyf", b"none"), "A") == [(1, "A")]


def test_limits_and_hinting():
    full, deep = FONTS["full"], FONTS["one_call_with_metrics"]
    assert len(subsetter.pdf_font(full, []).program) > len(subsetter.pdf_font(full, [], hinting=False).program)
    for more, error in (({"depth": 2, "tokens": 3}, type(None)), ({"depth": 1}, subsetter.CFFError), ({"tokens": 2}, subsetter.CFFError),
                        ({"most_bytes": 10}, subsetter.OverflowError)):
        assert type(raised(subsetter.pdf_font, deep, [], **more)) is error


def test_choices():
    plain = subsetter.pdf_font(TTF, SHOWN)
    assert plain.text_is_mapped == [True, True, False] and plain.codes == [1, 2, 1]
    nothing = subsetter.pdf_font(TTF, [])
    assert nothing.codes == [] and nothing.objects(1).offsets[0] == 0 and b"/Count 1" in nothing.sheet()
    named = subsetter.pdf_font(TTF, SHOWN, tag="AZBYCX")
    assert named.descriptor.font_name == "AZBYCX+Made-Regular" and repr(named) == "<PdfFont AZBYCX+Made-Regular, TrueType, 3 glyphs>"
    assert plain.objects(2**32 - 8).bytes.startswith(b"4294967288 0 obj")
    for call in (lambda: plain.is_said, lambda: subsetter.pdf_font(TTF, SHOWN, rights="as_said").text_is_mapped):
        with pytest.warns(DeprecationWarning):
            assert call() == [True, True, False]


def test_what_is_changed_in_an_answer_is_written_nowhere():
    shown = [(1, "A"), (5, "fi")]
    font = subsetter.pdf_font(TTF, shown, codes="each_text", cid_set=True, vertical=True)
    wanted = font.objects(4), font.sheet(), font.sheet("grid")
    for it in (shown, font.cids, font.codes, font.widths, font.text_is_mapped, font.columns, font.objects(4).offsets):
        it.clear()
    font.program, font.to_unicode, font.encoding, font.cid_set, font.kind, font.glyph_count = b"", b"", None, None, "CFF", 0
    with warnings.catch_warnings():
        warnings.simplefilter("error")
        for it in (font, copy.copy(font), copy.deepcopy(font), pickle.loads(pickle.dumps(font))):
            assert (it.objects(4), it.sheet(), it.sheet("grid")) == wanted
    with font:
        pass
    assert type(raised(font.objects, 4)) is type(raised(font.sheet)) is ValueError


@pytest.mark.parametrize("more, unpacked, name", [
    ({"compress": True}, zlib.decompress, b"/FlateDecode"), ({"pack": binascii.hexlify, "filter": "/Own"}, binascii.unhexlify, b"/Own")])
def test_parts(more, unpacked, name):
    """They are the objects; where each stream is packed, its dictionary says how, and nothing else is otherwise."""
    font = subsetter.pdf_font(TTF, SHOWN, cid_set=True, codes="each_text")
    numbers = range(4, 4 + font.part_count)
    plain, packed = font.parts(numbers), font.parts(numbers, **more)
    assert b"".join(b"%d 0 obj\n%s\nendobj\n" % (it.number, it.value) for it in plain) == font.objects(4).bytes
    assert {it.entries[start:end] for it in plain for start, end in it.strings} == {b"(Adobe)", b"(Identity)"}
    assert [it.role for it in packed] == ["font", "cid_font", "descriptor", "program", "to_unicode", "cid_set", "encoding"]
    assert [(it.number, it.strings, it.entries) for it in packed] == [
        (it.number, it.strings, it.entries + (b"/Filter %s " % name if it.stream is not None else b"")) for it in plain]
    assert [it.stream is not None and unpacked(it.stream) for it in packed] == [it.stream is not None and it.stream for it in plain]

def test_codes_and_advances_without_a_font():
    """(The rows of tests/c have both.)"""
    assert subsetter.codes_of(iter(SHOWN)) == [1, 2, 1] and subsetter.codes_of(SHOWN, "each_text") == [1, 2, 3]
    variable, place = made("made_variable.ttf"), {"wght": 650, "wgth": 1, "none": 2}
    font = subsetter.pdf_font(variable, SHOWN, coordinates=place)
    assert subsetter.advances(variable, [1, 5, 1], coordinates=place) == (2048, [1466, 1139, 1466], [2048] * 3)
    assert (font.units_per_em, font.unknown_axes, [font.exact_widths[cid] for cid in font.cids]) == (2048, ["wgth", "none"], [1466, 1139, 1466])
    assert type(raised(subsetter.advances, TTF, [999])) is subsetter.MalformedFont and subsetter.advances(TTF, []).widths == []


def test_entries_that_are_blank():
    font = subsetter.pdf_font(made("made_colour.ttf"), [(1, "A"), (11, "B"), (10, "C"), (11, "B")])
    assert font.unseen == pickle.loads(pickle.dumps(font)).unseen == [1, 3]
    assert subsetter.kinds_of(made("made_colour.ttf"), [10, 11]) == [("svg", "outline"), ("svg", "empty")]
    with subsetter.PdfText(made("made_colour.ttf")) as text:
        assert text.font().unseen == subsetter.pdf_font(TTF, [(11, "B")]).unseen == []


def test_no_memory_for_a_copy_of_an_answer(monkeypatch):
    """What the library handed over is given back."""
    library, counts, font = subsetter._library(), [], subsetter.pdf_font(TTF, SHOWN)

    def raising(*_):
        raise MemoryError("mine")

    for name in ("free", "free_font", "free_pdf_objects"):
        real = getattr(library, f"subsetter_{name}")
        monkeypatch.setattr(library, f"subsetter_{name}", lambda it, name=name, real=real: (counts.append(name), real(it)))
    monkeypatch.setattr(ctypes, "string_at", raising)
    for call in (lambda: subsetter.subset(TTF, [1]), lambda: subsetter.pdf_font(TTF, SHOWN), lambda: font.objects(4)):
        assert str(raised(call)) == "mine"
    assert counts == ["free", "free_font", "free_pdf_objects"]


TYPES = {"uint8_t": ctypes.c_uint8, "uint16_t": ctypes.c_uint16, "uint32_t": ctypes.c_uint32, "int32_t": ctypes.c_int32, "size_t": ctypes.c_size_t}
STRUCTS = {"subsetter_coordinate": subsetter._Coordinate, "subsetter_made": subsetter._Made, "subsetter_pdf_font": subsetter._PdfFont, "subsetter_font": subsetter._Font,
           "subsetter_pdf_objects": subsetter._Objects, "subsetter_metrics": subsetter._Metrics, "subsetter_text": subsetter._Text,
           "subsetter_pdf_range": subsetter._Range, "subsetter_pdf_part": subsetter._Part, "subsetter_pdf_parts": subsetter._Parts}


@pytest.mark.parametrize("name, own", STRUCTS.items())
def test_structs_are_those_of_the_header(name, own):
    """A sign, a width or an order that differs would read other numbers. (What is read as bytes may be any pointer.)"""
    header = re.sub(r"/\*.*?\*/", "", (ROOT / "bindings/c/subsetter.h").read_text(), flags=re.S)
    body = re.search(rf"typedef struct {name} {{(.*?)\n}}", header, re.S)[1]
    fields = re.findall(r"^\s*(?:const )?(\w+) (\*?)(\w+)(?:\[(\d+)\])?;", body, re.M)
    assert len(fields) > 1 and [it[2] for it in fields] == [field for field, _ in own._fields_]
    for (kind, star, field, count), (_, found) in zip(fields, own._fields_):
        known = {**TYPES, **STRUCTS}
        wanted = known[kind] * int(count) if count else known.get(kind)
        assert found is (ctypes.POINTER(wanted) if star else wanted) or (found is ctypes.c_void_p and star), field
