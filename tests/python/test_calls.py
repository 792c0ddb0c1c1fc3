"""What the calls take: fonts, glyph numbers, limits, coordinates and choices of each kind, and what they raise for others."""

import array
import builtins
import ctypes
import decimal
import fractions
import itertools
import math
import mmap
import pickle
import types

import pytest
import subsetter
from common import ERRORS, ROOT, changed, made, raised, read_rows
from hypothesis import example, given, strategies as st

ROWS, FONTS, TEXTS = read_rows()
FONT, WANTED = next((row.font, row.wanted) for row in ROWS if row.name == "simple")
TTF, SHOWN = made("made.ttf"), [(1, "A"), (5, "fi"), (1, "a")]
# Each call on a font.
CALLS = {
    "subset": lambda font, **more: subsetter.subset(font, [1, 5], **more),
    "embed": lambda font, **more: subsetter.embed(font, [1, 5], **more),
    "glyphs_of": lambda font, **more: subsetter.glyphs_of(font, "A", **more),
    "pdf_font": lambda font, **more: subsetter.pdf_font(font, SHOWN, **more),
}
LIMITED = [CALLS[name] for name in ("subset", "embed", "pdf_font")]
RANGES = {"index": (0, 0xFFFFFFFF), "tokens": (1, 0xFFFFFFFF), "depth": (1, 255), "most_bytes": (1, 0xFFFFFFFF)}


def number(**methods):
    """An object with these methods; an answer that is an exception is raised."""
    def method(answer):
        def call(self, *_):
            if isinstance(answer, Exception):
                raise answer
            return answer
        return call
    return type("Number", (), {f"__{name}__": method(answer) for name, answer in methods.items()})()


def alone(error):
    """Whether the caller sees this exception alone, without the one it was made of."""
    return error.__cause__ is None and (error.__context__ is None or error.__suppress_context__)


# ---- fonts

def test_buffers(tmp_path):
    path = tmp_path / "font"
    path.write_bytes(b"ten bytes." + FONT)
    with open(path, "r+b") as file, mmap.mmap(file.fileno(), 0) as mapped, mmap.mmap(file.fileno(), 0, access=mmap.ACCESS_READ) as read_only:
        buffers = [
            FONT, bytearray(FONT), memoryview(FONT), array.array("b", FONT), (ctypes.c_char * len(FONT)).from_buffer_copy(FONT),
            memoryview(b"123" + FONT + b"45")[3:-2], memoryview(bytearray(b"1" + FONT))[1:], memoryview(FONT).cast("c"),
            memoryview(mapped)[10:], memoryview(read_only)[10:],
        ]
        for buffer in buffers:
            assert subsetter.subset(buffer, [2]) == WANTED
            assert type(raised(subsetter.embed, buffer, [2])) is subsetter.MalformedFont
        del buffer
        for view in buffers:
            if isinstance(view, memoryview):
                view.release()
        assert type(raised(subsetter.subset, mapped, [2])) is subsetter.UnknownKind


def test_a_buffer_is_held_during_a_call_and_released_after_it(monkeypatch):
    held, refused = bytearray(FONT), []
    library = subsetter._library()
    real = library.subsetter_make_subset_by_words

    def call(*arguments):
        refused.append(type(raised(held.append, 0)))
        return real(*arguments)

    monkeypatch.setattr(library, "subsetter_make_subset_by_words", call)
    assert subsetter.subset(held, [2]) == WANTED and refused == [BufferError]
    held.append(0)
    assert raised(subsetter.subset, held, [9]) is not None
    held.append(0)


# ---- glyph numbers

@given(st.lists(st.integers() | st.integers(-2, 70000)))
@example([65535, 0])
@example([65536])
@example([-1])
@example([2, 1 << 16 | 2])
@example([1 << 80])
def test_glyph_numbers(glyphs):
    for call in (subsetter.subset, subsetter.embed):
        error = raised(call, TTF, glyphs)
        if any(not 0 <= glyph <= 65535 for glyph in glyphs):
            assert type(error) is ValueError and alone(error) and "0 to 65535" in str(error)
        elif any(glyph > 11 for glyph in glyphs):
            assert type(error) is subsetter.MalformedFont
        else:
            assert error is None


def test_iterables_of_glyphs():
    for glyphs in ((2,), {2: 0}, range(2, 3), array.array("H", [2]), array.array("q", [2]), (it for it in (2, 2)), [number(index=2)]):
        assert subsetter.subset(FONT, glyphs) == WANTED

    def endless():
        yield 2
        raise KeyError("mine")

    assert type(raised(subsetter.subset, FONT, endless())) is KeyError


# ---- numbers and choices

@pytest.mark.parametrize("name", RANGES)
@given(value=st.integers() | st.integers(-3, 300) | st.sampled_from([2**32 - 1, 2**32, 2**32 + 1, 2**64]))
def test_limits(name, value):
    least, most = RANGES[name]
    for call in LIMITED if name != "index" else CALLS.values():
        error = raised(call, TTF, **{name: value})
        if least <= value <= most:
            assert error is None or isinstance(error, subsetter.Error)
        else:
            assert type(error) is ValueError and str(error).startswith(f"{name} is from {least} to {most}, and not ") and len(str(error)) < 120


# ---- coordinates

def nearest(value):
    """A value in 65536ths, to the nearest, a half up, within 32 bits."""
    return max(-0x80000000, min(math.floor(fractions.Fraction(value) * 65536 + fractions.Fraction(1, 2)), 0x7FFFFFFF))


REAL = st.floats() | st.floats(-4, 4) | st.integers() | st.fractions() | st.decimals() | st.sampled_from([10**400, -(10**400), decimal.Decimal("1E+1000000")])


@given(REAL)
@example(0.49999999999999994 / 65536)
@example(-0.5000000000000001 / 65536)
@example(5e-324)
@example(1.7e308)
def test_coordinates(value):
    calls = [subsetter.subset, subsetter.embed, subsetter.pdf_font]
    try:
        is_number = isinstance(value, int) or math.isfinite(float(value))
    except (ValueError, builtins.OverflowError):
        # (a NaN that signals)
        is_number = isinstance(value, fractions.Fraction)
    if is_number:
        [found] = subsetter._coordinates({"wght": value})
        try:
            assert found.value == nearest(value if isinstance(value, int) else float(value))
        except builtins.OverflowError:
            assert found.value in (-0x80000000, 0x7FFFFFFF)
        assert all(raised(call, TTF, [], coordinates={"wght": value}) is None for call in calls)
    else:
        for call in calls:
            error = raised(call, TTF, [], coordinates={"wght": value})
            assert type(error) is ValueError and alone(error) and str(error).startswith("the value of the axis wght is ") and len(str(error)) < 100


def test_values_of_any_kind():
    assert [it.value for it in subsetter._coordinates({"wght": number(float=2.5), "wdth": True, "AZ~ ": number(index=3)})] == [163840, 65536, 196608]
    assert [it.tag for it in subsetter._coordinates({"wght": 2, "AZ~ ": -1})] == [0x77676874, 0x415A7E20]
    assert subsetter.subset(FONT, [2], coordinates=types.MappingProxyType({"wght": 1})) == WANTED
    wide = [number(float=error, str="9" * 5000) for error in (OverflowError("x"), ValueError("x"), decimal.Overflow("x"))]
    for value in (decimal.Decimal("sNaN"), decimal.Decimal("9" * 6000), *wide):
        error = raised(subsetter.subset, FONT, [2], coordinates={"wght": value})
        assert type(error) is ValueError and alone(error) and len(str(error)) < 100
    for value, wanted in ((True, 0x7FFFFFFF), (False, -0x80000000)):
        assert subsetter._fixed("wght", number(float=OverflowError("x"), gt=value)) == wanted


# ---- what is refused

def by(name, calls=LIMITED):
    """Calls with a value for a keyword."""
    return [lambda value, call=call: call(TTF, **{name: value}) for call in calls]


def released():
    view = memoryview(TTF)
    view.release()
    return view


MADE = subsetter.pdf_font(TTF, SHOWN)
COUNT = MADE.part_count
GLYPHS = [lambda it: subsetter.subset(TTF, it), lambda it: subsetter.embed(TTF, it)]
TEXTS_OF = [lambda it: subsetter.glyphs_of(TTF, it), lambda it: subsetter.pdf_font(TTF, [(1, it)])]
NAMES = {"program": ["smallest", "opentype"], "codes": ["consecutive", "source", "each_text"], "bounds": ["font", "kept"], "rights": ["from_font", "held"]}
CHOICES = {"hinting": LIMITED, "names": LIMITED[:2], "glyph_names": LIMITED[:2], "vertical": LIMITED[2:], "cid_set": LIMITED[2:], "hint": LIMITED}
# Calls, and values that each of them refuses.
WRONG = [
    (ValueError, CALLS.values(), [released()]),
    (TypeError, CALLS.values(), [5, "text", None, [0, 1], object(), array.array("H", [1, 2]), (ctypes.c_uint16 * 4)(), memoryview(TTF)[::2], memoryview(TTF)[::-1],
                                 memoryview(bytes(16)).cast("B", (4, 4)), memoryview(bytes(16)).cast("I"), memoryview(bytes(4)).cast("?")]),
    # (bytes and texts are iterables, but hardly what the caller means)
    (TypeError, GLYPHS, [b"", bytes([36, 3]), bytearray([36, 3]), memoryview(bytes([36, 3])), "", "36", 5, None, object(), [1.0], ["1"], [None], [[1]]]),
    *((TypeError, by(name), ["1", 1.0, b"1", [1], *([None] if name == "index" else [])]) for name in RANGES),
    *((TypeError, by(name, calls), [0, 1, None, "no"]) for name, calls in CHOICES.items()),
    # (they are given by name alone)
    (TypeError, [lambda it: subsetter.subset(TTF, [], 0, it)], [5]),
    (ValueError, by("coordinates"), [{"wdth": 1, tag: 1} for tag in ("", "wgh", "wghtt", "wgh\xe9", "\U0001F600", "wght\n")]),
    (TypeError, by("coordinates"), [{tag: 1} for tag in (b"wght", 0x77676874, None, ("w", "g", "h", "t"))]),
    (TypeError, by("coordinates"), [{"wght": it} for it in (None, "650", b"650", [650], 650j)]),
    (TypeError, by("coordinates"), [5, "wght", [("wght", 650)], {"wght"}, iter([]), [], True]),
    (TypeError, TEXTS_OF, [b"A", 5, None, ["A"], [65]]),
    (subsetter.InvalidText, TEXTS_OF, ["\ud800", "A\udfff", "\udc00\ud800"]), (subsetter.InvalidText, TEXTS_OF[1:], ["a" * 257, "\U0001f600" * 129]),
    (ValueError, by("tag", LIMITED[2:]), ["", "ABCDE", "ABCDEFG", "ABCDEf", "@BCDEF", "ABCDE[", "ABCDEF\n", "ABCDE\xc4", "ABC5EF"]),
    (TypeError, by("tag", LIMITED[2:]), [b"ABCDEF", 5, 0, False, list("ABCDEF")]),
    (TypeError, [lambda it: subsetter.pdf_font(TTF, it)], [5, [1], [("1", "A")]]),
    (ValueError, [lambda it: subsetter.pdf_font(TTF, it)], [[(1, "A", 2)], [(65536, "A")], [(-1, "A")], [(1 << 64, "A")]]),
    *((ValueError, by(name, LIMITED[2:]), ["", known[0].upper(), known[0] + " ", known[1] + "\n", ", ".join(known), "eachText"]) for name, known in NAMES.items()),
    *((TypeError, by(name, LIMITED[2:]), [None, 0, True, known[0].encode(), [known[0]]]) for name, known in NAMES.items()),
    (ValueError, [MADE.objects], [0, -1, 2**32, 2**32 + 4]), (TypeError, [MADE.objects], ["4", 1.0]),
    (ValueError, [MADE.sheet], ["page", ""]), (TypeError, [MADE.sheet], [1, None]),
    (ValueError, [MADE.parts], [[1, 2], range(COUNT), [7] * COUNT, [2**32] * COUNT, [-1] * COUNT]), (TypeError, [MADE.parts], [["1"] * COUNT, 5]),
    (TypeError, [lambda it: MADE.parts(range(1, 1 + COUNT), **it)], [{"compress": 9}, {"pack": "zlib"}, {"pack": bytes.hex}, {"filter": b"/Own"}]),
    (ValueError, [lambda it: MADE.parts(range(1, 1 + COUNT), **it)], [{"filter": "FlateDecode"}, {"filter": "/\xc4"}, {"compress": True, "filter": "/Own"}]),
    (ValueError, [lambda it: subsetter.codes_of(SHOWN, it)], ["cids"]),
]


@pytest.mark.parametrize("kind, calls, values", WRONG)
def test_wrong_values(kind, calls, values):
    for call, value in itertools.product(calls, values):
        error = raised(call, value)
        assert type(error) is kind and alone(error), value


@pytest.mark.parametrize("name", RANGES)
def test_a_number_that_python_doesnt_write(name):
    for call in by(name):
        error = raised(call, 10**5000)
        assert type(error) is ValueError and alone(error) and str(error).startswith(f"{name} is ")


# ---- errors and names

@pytest.mark.parametrize("kind, message, call", [
    (subsetter.Unimplemented, "unsupported feature in font: CFF2: its outlines are taken at coordinates alone: coordinates={} is the default", lambda: subsetter.subset(made("made_cff2.otf"), [])),
    (subsetter.OverflowError, "overflow occurred: more than the 9 bytes or 1000000 tokens of the limits, or a number that is too large", lambda: subsetter.subset(TTF, [1], most_bytes=9)),
    (subsetter.MissingCharacters, "missing characters: U+0041 at 0: cmap: its table in format 4 has 172 bytes, needs 262152",
     lambda: subsetter.glyphs_of(changed("made.ttf", "cmap+20=0009000900000064000400480000fffe"), "A", missing="error")),
    (subsetter.OverflowError, "overflow occurred: tokens is 1", lambda: subsetter.advances(made("made_variable.ttf"), [1], coordinates={"wght": 650}, tokens=1)),
    (subsetter.NotPermitted, 'embedding not permitted: OS/2: fsType 0x0104 forbids subsets (bit 8): if you hold the rights, rights="held"',
     lambda: subsetter.pdf_font(made("made.otf"), [])),
    (subsetter.OverflowError, "overflow occurred: 65535 pairs of a glyph and a text, and at most 65534 besides glyph 0",
     lambda: subsetter.pdf_font(TTF, [(0, ""), *((1, chr(it)) for it in range(65_536, 131_071))], codes="each_text")),
    (subsetter.OverflowError, "overflow occurred: 65535 glyphs, and at most 65534 besides glyph 0", lambda: subsetter.codes_of([(it, "") for it in range(65_536)])),
    (subsetter.InvalidText, "invalid text: U+DFFF is an unpaired surrogate", lambda: subsetter.glyphs_of(TTF, "A\udfff")),
    (subsetter.InvalidText, "invalid text: U+D800 is an unpaired surrogate", lambda: subsetter.codes_of([(1, "\ud800")])),
    (subsetter.InvalidText, "invalid text: a text has more than 256 UTF-16 units", lambda: subsetter.pdf_font(TTF, [(1, "\U0001f600" * 129)])),
    (subsetter.OverflowError, "overflow occurred: the numbers from 4294967289 on don't fit 32 bits", lambda: MADE.objects(2**32 - 7)),
])
def test_messages_say_why(kind, message, call):
    error = raised(call)
    assert type(error) is kind and alone(error) and str(error) == message


def test_errors():
    bases = {"OverflowError": (subsetter.Error, builtins.OverflowError), "OutOfMemory": (subsetter.Error, MemoryError),
             "InvalidText": (subsetter.Error, ValueError), "Overfull": (subsetter.OverflowError,), "BitmapsAlone": (subsetter.UnknownKind,)}
    library = subsetter._library()
    assert raised(subsetter._check, library, 0) is raised(subsetter.pdf_font, TTF, [(1, "a" * 256)]) is None and subsetter.Error.__bases__ == (Exception,)
    for status in [*range(1, 20), 255, 256, 2**32 - 1]:
        error = raised(subsetter._check, library, status)
        if status not in ERRORS:
            assert type(error) is (ValueError if status == 16 else RuntimeError) and (status == 16 or f"status {status}" in str(error))
            continue
        kind, again = getattr(subsetter, ERRORS[status]), pickle.loads(pickle.dumps(error))
        assert type(error) is type(again) is kind and again.args == error.args and str(error) == TEXTS.get(status, "too many codes")
        assert kind.__bases__ == bases.get(kind.__name__, (subsetter.Error,))


def test_names():
    names = {}
    exec("from subsetter import *", names)
    assert "OverflowError" not in names and set(names) - {"__builtins__"} == set(subsetter.__all__)
    assert subsetter.__version__ == (ROOT / "VERSION").read_text().split()[0]
