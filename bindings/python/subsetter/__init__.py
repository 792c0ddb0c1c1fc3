"""Fonts cut down to some of their glyphs, for embedding in PDF.

All that a PDF has of a font, and a PDF of one line:

    import subsetter
    with open("font.ttf", "rb") as file:
        data = file.read()
    font = subsetter.pdf_font(data, subsetter.glyphs_of(data, "Hello"))  # .objects(5), .program, .codes, .widths ..
    with open("hello.pdf", "wb") as file:
        file.write(font.sheet())

Text that a shaper such as HarfBuzz has placed is written by `PdfText`. The font alone, or with CIDs and widths:

    import subsetter
    with open("font.ttf", "rb") as file:
        data = file.read()
    font = subsetter.subset(data, [36, 68])
    embedded = subsetter.embed(data, [36, 68])  # .font, .cids, .widths

The work is done by the library `libsubsetter.so` (on Windows `subsetter.dll`, on macOS `libsubsetter.dylib`), which the first
call loads. It is the file that the environment's SUBSETTER_LIBRARY names, else it is looked for beside this file, in
`bindings/c/out` of the repository that has this file, and by the system's loader, in this order. Calls share nothing, so
threads may call at the same time, and Python's other threads go on while a call runs.

`OverflowError` isn't among the names of `from subsetter import *`, as it is also the name of a built-in exception; it is
one of that kind.
"""

from __future__ import annotations

import builtins
import ctypes
import itertools
import math
import operator
import os
import struct
import sys
import threading
import warnings
import weakref
import zlib
from array import array
from contextlib import ExitStack, contextmanager
from typing import (
    TYPE_CHECKING, Any, Callable, Dict, Iterable, Iterator, List, Literal, Mapping, NamedTuple, NoReturn, Optional, Protocol,
    SupportsFloat, SupportsIndex, Tuple, Type, Union,
)

Value = Union[SupportsFloat, SupportsIndex]
Codes = Literal["consecutive", "source", "each_text"]
_CODES: Tuple[Codes, ...] = ("consecutive", "source", "each_text")
Role = Literal["font", "cid_font", "descriptor", "program", "to_unicode", "cid_set", "encoding", "cid_to_gid_map"]
_ROLES: Tuple[Role, ...] = ("font", "cid_font", "descriptor", "program", "to_unicode", "cid_set", "encoding", "cid_to_gid_map")
GlyphKind = Literal[
    "colr1", "colr0", "svg", "cbdt17", "cbdt18", "cbdt19", "cbdt", "sbix-png", "sbix-jpg", "sbix-tiff", "sbix-pdf", "sbix-mask",
    "sbix-dupe", "sbix", "ebdt", "outline", "empty",
]
Bounds = Literal["font", "kept"]
Rights = Literal["from_font", "held", "as_said"]
Direction = Literal["ltr", "rtl", "ttb"]
_DIRECTIONS: Tuple[Direction, ...] = ("ltr", "rtl", "ttb")
Item = Union[
    Tuple[SupportsIndex, Optional[str]],
    Tuple[SupportsIndex, Optional[str], SupportsIndex, SupportsIndex, SupportsIndex, SupportsIndex],
]
if TYPE_CHECKING:
    from _typeshed import ReadableBuffer as Buffer
elif sys.version_info >= (3, 12):
    from collections.abc import Buffer
else:
    Buffer = Any

__all__ = [
    "pdf_font", "glyphs_of", "codes_of", "advances", "kinds_of", "PdfFont", "Advances", "Column", "Descriptor", "Permission", "Objects", "Part",
    "PdfText", "Run", "subset", "embed", "Embedded", "Error",
    "UnknownKind", "MalformedFont", "Unimplemented", "SubsetError", "CFFError", "OutOfMemory", "NotPermitted", "InvalidText", "Overfull",
    "NoCmap", "BitmapsAlone", "MissingCharacters", "TextGlyphs",
]

__version__ = "1.0.0"


class Error(Exception):
    """Why a font can't be subset. Its text says it in words and, after a colon, which table or glyph the font shows it by:
    "malformed font: glyph 60000: the font's glyphs are 0 to 6252"."""


class UnknownKind(Error):
    """No OpenType font, or one without outlines."""


class MalformedFont(Error):
    """A table is missing or cut, or there is no such glyph or face."""


class Unimplemented(Error):
    """The outlines are CFF2, and there are no `coordinates`, or a glyph is an accented character that `endchar` puts together."""


class SubsetError(Error):
    """A kept string lies outside its table, or the new `name` would be too large."""


class OverflowError(Error, builtins.OverflowError):
    """The glyphs leave no number for glyph 0, or the new font would be too large; or a real number of a CFF dict has more
    than 64 characters, or `hhea` counts no metrics."""


class CFFError(Error):
    """`CFF ` has another version than 1, or a charstring can't be run within the limits."""


class OutOfMemory(Error, MemoryError):
    """Memory ran out."""


class NotPermitted(Error):
    """The font's maker doesn't permit that it is embedded (`fsType` of the table `OS/2`), and `rights` isn't "held"."""


class InvalidText(Error, ValueError):
    """A text has an unpaired surrogate, or more than 256 UTF-16 units; or glyphs are no run of the font and of their text."""


class NoCmap(Error):
    """The font has no table by which characters have glyphs."""


class BitmapsAlone(UnknownKind):
    """The face has no outlines (`glyf`, `CFF `, `CFF2`), but bitmaps or other pictures, or none: `pdf_font` alone raises it."""


class MissingCharacters(Error, ValueError):
    """The font lacks characters of a text; `missing` are their places."""

    missing: List[int] = []


class Overfull(OverflowError):
    """The font of a `PdfText` would have more than 65,535 codes, code 0 among them, or glyphs: the run is for another one."""


class Embedded(NamedTuple):
    """A font for a PDF."""

    font: bytes
    """The subset of the font."""
    cids: List[int]
    """The CID of each given glyph, in the order given."""
    widths: List[int]
    """The width of each CID, from 0 on, in thousandths of the em."""


class Column(NamedTuple):
    """A CID in vertical writing (ISO 32000-1, 9.7.4.3), in thousandths of the em."""

    advance: int
    """From one glyph to the next, mostly below 0: downwards."""
    x: int
    """The origin of vertical writing, to the right of that of horizontal writing."""
    y: int
    """And above it."""


class Descriptor(NamedTuple):
    """The values of the font descriptor (ISO 32000-1, Table 122). Lengths are in thousandths of the em."""

    font_name: str
    """FontName: six capitals, `+` and the PostScript name, in characters that need no escape."""
    flags: int
    """Flags (Table 123)."""
    bounds: Tuple[int, int, int, int]
    """FontBBox: the left, lower, right and upper edges."""
    italic_angle: float
    """ItalicAngle, in degrees with at most three decimals, counterclockwise."""
    ascent: int
    """Ascent."""
    descent: int
    """Descent, not above 0."""
    cap_height: int
    """CapHeight."""
    x_height: Optional[int]
    """XHeight, where the font has it."""
    stem_v: int
    """StemV."""
    font_weight: int
    """FontWeight: 100, 200 and so on up to 900."""


class Permission(NamedTuple):
    """What the font's maker permits (`fsType` of the table `OS/2`)."""

    usage: Literal["unsaid", "installable", "editable", "preview_and_print", "restricted"]
    """What a document may do with the font."""
    subsetting: bool
    """Whether a subset may be embedded for the font."""
    outlines: bool
    """Whether outlines may be embedded, and not bitmaps alone."""


class Advances(NamedTuple):
    """Advances of glyphs, in the font's units."""

    units_per_em: int
    """How many units an em has."""
    widths: List[int]
    """Of each given glyph the horizontal advance."""
    heights: List[int]
    """And the vertical one: an em where the font has none."""


class Part(NamedTuple):
    """An object of a PDF, as data: a dictionary, or a stream with its dictionary.

    - `role`: "font", "cid_font", "descriptor", "program", "to_unicode", "cid_set", "encoding" or "cid_to_gid_map".
    - `number`: as the caller chose it.
    - `entries`: those of its dictionary, without `<<`, `>>` and Length, and without Filter unless the stream is packed.
    - `strings`: where strings are in the entries, with their parentheses, from and up to. Encryption has to cover these too:
      `part._replace(entries=.., stream=..).value` is the object of what comes of it.
    - `stream`: its bytes; None where the object is none.
    """

    role: Role
    number: int
    entries: bytes
    strings: List[Tuple[int, int]]
    stream: Optional[bytes]

    @property
    def value(self) -> bytes:
        """The object, as it is between `N 0 obj` and `endobj`."""
        if self.stream is None:
            return b"<< %s>>" % self.entries
        return b"<< %s/Length %d >>\nstream\n%s\nendstream" % (self.entries, len(self.stream), self.stream)


class Objects(NamedTuple):
    """Whole indirect objects of a PDF, one after the other."""

    bytes: bytes
    """Their bytes."""
    offsets: List[int]
    """Where each object begins in them, for the cross-reference table."""


# ---- the library, as bindings/c/subsetter.h declares it

_NAME = {"win32": "subsetter.dll", "darwin": "libsubsetter.dylib"}.get(sys.platform, "libsubsetter.so")
_ERRORS: Dict[int, Type[Error]] = {
    1: UnknownKind, 2: MalformedFont, 3: Unimplemented, 4: SubsetError, 5: OverflowError, 6: CFFError, 7: OutOfMemory,
    11: NotPermitted, 12: InvalidText, 13: NoCmap, 14: BitmapsAlone, 15: Overfull,
}
_DROP_HINTING, _DROP_NAMES, _DROP_GLYPH_NAMES, _DROP_ALL = 1, 2, 4, 7


class _Coordinate(ctypes.Structure):
    """A value on an axis, in 65536ths."""

    _fields_ = [("tag", ctypes.c_uint32), ("value", ctypes.c_int32)]


class _Entry(ctypes.Structure):
    """A glyph with the places of its characters."""

    _fields_ = [("glyph", ctypes.c_uint16), ("start", ctypes.c_size_t), ("end", ctypes.c_size_t)]


class _ReadSizes(ctypes.Structure):
    """How many entries there are, and how many places of what the font lacks."""

    _fields_ = [("entries", ctypes.c_size_t), ("missing", ctypes.c_size_t)]


class _Made(ctypes.Structure):
    """What the library hands over."""

    _fields_ = [
        ("font", ctypes.c_void_p), ("font_size", ctypes.c_size_t),
        ("cids", ctypes.POINTER(ctypes.c_uint16)), ("cid_count", ctypes.c_size_t),
        ("widths", ctypes.POINTER(ctypes.c_uint32)), ("width_count", ctypes.c_size_t),
    ]


class _PdfFont(ctypes.Structure):
    """What the library hands over of a font for a PDF. (Lists are read as bytes, so any pointer will do.)"""

    _fields_ = [
        ("program", ctypes.c_void_p), ("program_size", ctypes.c_size_t),
        ("cids", ctypes.c_void_p), ("cid_count", ctypes.c_size_t),
        ("codes", ctypes.c_void_p), ("code_count", ctypes.c_size_t),
        ("is_said", ctypes.c_void_p), ("said_count", ctypes.c_size_t),
        ("widths", ctypes.c_void_p), ("width_count", ctypes.c_size_t),
        ("columns", ctypes.c_void_p), ("column_count", ctypes.c_size_t),
        ("font_name", ctypes.c_void_p), ("font_name_size", ctypes.c_size_t),
        ("to_unicode", ctypes.c_void_p), ("to_unicode_size", ctypes.c_size_t),
        ("encoding", ctypes.c_void_p), ("encoding_size", ctypes.c_size_t),
        ("encoding_name", ctypes.c_void_p), ("encoding_name_size", ctypes.c_size_t),
        ("cid_set", ctypes.c_void_p), ("cid_set_size", ctypes.c_size_t),
        ("kind", ctypes.c_uint32), ("is_vertical", ctypes.c_uint32), ("default_width", ctypes.c_uint32),
        ("default_column", ctypes.c_int32 * 2), ("flags", ctypes.c_uint32), ("bounds", ctypes.c_int32 * 4),
        ("italic_angle", ctypes.c_int32), ("ascent", ctypes.c_int32), ("descent", ctypes.c_int32),
        ("cap_height", ctypes.c_int32), ("has_x_height", ctypes.c_uint32), ("x_height", ctypes.c_int32),
        ("stem_v", ctypes.c_uint32), ("font_weight", ctypes.c_uint32), ("usage", ctypes.c_uint32),
        ("may_subset", ctypes.c_uint32), ("may_embed_outlines", ctypes.c_uint32),
    ]


class _Font(ctypes.Structure):
    """The older struct and what is new, after its own size."""

    _fields_ = [
        ("size", ctypes.c_uint32), ("units_per_em", ctypes.c_uint32), ("pdf", _PdfFont),
        ("exact_widths", ctypes.c_void_p), ("exact_width_count", ctypes.c_size_t),
        ("unknown_axes", ctypes.c_void_p), ("unknown_axis_count", ctypes.c_size_t),
        ("glyphs", ctypes.c_void_p), ("glyph_count", ctypes.c_size_t),
        ("text", ctypes.c_void_p), ("text_count", ctypes.c_size_t),
        ("ends", ctypes.c_void_p), ("end_count", ctypes.c_size_t),
        ("cid_to_gid_map", ctypes.c_void_p), ("cid_to_gid_map_size", ctypes.c_size_t),
    ]


class _Metrics(ctypes.Structure):
    _fields_ = [("displacement", ctypes.c_int32), ("position", ctypes.c_int32)]


class _Text(ctypes.Structure):
    """What runs of text need of a font, and which codes they have."""

    _fields_ = [
        ("size", ctypes.c_uint32), ("units_per_em", ctypes.c_uint32),
        ("font", ctypes.c_void_p), ("font_size", ctypes.c_size_t),
        ("coordinates", ctypes.c_void_p), ("coordinate_count", ctypes.c_size_t),
        ("metrics", ctypes.POINTER(_Metrics)), ("metric_count", ctypes.c_size_t),
        ("inked", ctypes.c_void_p), ("inked_count", ctypes.c_size_t),
        ("pairs", ctypes.c_void_p), ("pair_count", ctypes.c_size_t),
        ("index", ctypes.c_uint32), ("is_vertical", ctypes.c_uint32),
        ("advances", ctypes.c_void_p), ("advance_count", ctypes.c_size_t),
        ("partable", ctypes.c_void_p), ("partable_count", ctypes.c_size_t),
        ("own", ctypes.c_void_p), ("own_count", ctypes.c_size_t),
        ("parts", ctypes.c_void_p), ("part_count", ctypes.c_size_t),
        ("most_parts", ctypes.c_uint32), ("is_still", ctypes.c_uint32),
    ]


class _Range(ctypes.Structure):
    _fields_ = [("start", ctypes.c_size_t), ("end", ctypes.c_size_t)]


class _Part(ctypes.Structure):
    """An object of a font."""

    _fields_ = [
        ("role", ctypes.c_uint32), ("number", ctypes.c_uint32),
        ("entries", ctypes.c_void_p), ("entries_size", ctypes.c_size_t),
        ("strings", ctypes.POINTER(_Range)), ("string_count", ctypes.c_size_t),
        ("is_stream", ctypes.c_uint32),
        ("stream", ctypes.c_void_p), ("stream_size", ctypes.c_size_t),
    ]


class _Parts(ctypes.Structure):
    """All objects of a font."""

    _fields_ = [("parts", ctypes.POINTER(_Part)), ("part_count", ctypes.c_size_t)]


class _Line(ctypes.Structure):
    """A run on a page of its own."""

    _fields_ = [("operators", ctypes.c_void_p), ("size", ctypes.c_size_t), ("advance", ctypes.c_uint32)]


class _Objects(ctypes.Structure):
    """What the library hands over of objects."""

    _fields_ = [
        ("bytes", ctypes.c_void_p), ("size", ctypes.c_size_t),
        ("offsets", ctypes.POINTER(ctypes.c_size_t)), ("offset_count", ctypes.c_size_t),
    ]


def _places() -> List[str]:
    """Where the library is looked for if nothing names it; the last is for the system's loader."""
    here = os.path.dirname(os.path.abspath(__file__))
    built = os.path.join(os.path.dirname(os.path.dirname(here)), "c", "out")
    return [os.path.join(here, _NAME), os.path.join(built, _NAME), _NAME]


def _open() -> ctypes.CDLL:
    named = os.environ.get("SUBSETTER_LIBRARY")
    if named:
        path = os.path.abspath(named)
        try:
            return ctypes.CDLL(path)
        except OSError as error:
            raise OSError(f"SUBSETTER_LIBRARY names {path}, which can't be loaded: {error}") from None
    tried = []
    for path in _places():
        if os.path.isabs(path) and not os.path.exists(path):
            tried.append(f"{path} isn't there")
            continue
        try:
            return ctypes.CDLL(path)
        except OSError as error:
            tried.append(f"the system's loader, or {path}: {error}" if path == _NAME else f"{path}: {error}")
    raise OSError(
        f"{_NAME} isn't found. SUBSETTER_LIBRARY isn't set; tried were:\n  " + "\n  ".join(tried)
        + "\nIn a clone `pip install ./bindings/python` builds it, and with the kit `make` in bindings/c."
    )


def _declare(library: ctypes.CDLL) -> ctypes.CDLL:
    pointer, size = ctypes.c_void_p, ctypes.c_size_t
    make = [pointer, size, ctypes.c_uint32, pointer, size, pointer, size, ctypes.POINTER(_Made)]
    make_at = make[:3] + [ctypes.POINTER(_Coordinate), size] + make[3:]
    declared = {
        "subsetter_error_text": ([ctypes.c_uint32, pointer, size, ctypes.POINTER(size)], ctypes.c_uint32),
        "subsetter_make_subset_by_words": (make, ctypes.c_uint32),
        "subsetter_make_subset_at_by_words": (make_at, ctypes.c_uint32),
        "subsetter_make_embedded_by_words": (make, ctypes.c_uint32),
        "subsetter_make_embedded_at_by_words": (make_at, ctypes.c_uint32),
        "subsetter_free": ([ctypes.POINTER(_Made)], None),
    }
    for_pdf = {
        "subsetter_glyphs_of": (make[:3] + [pointer, size, pointer, size, ctypes.POINTER(size)], ctypes.c_uint32),
        "subsetter_make_pdf_font_by_words": (
            make_at[:5] + [pointer, size] * 4 + [ctypes.POINTER(_PdfFont)], ctypes.c_uint32),
        "subsetter_free_pdf_font": ([ctypes.POINTER(_PdfFont)], None),
        # (a font may be older than this declaration, where the module is loaded again: any pointer will do)
        "subsetter_make_pdf_objects": ([pointer, ctypes.c_uint32, ctypes.POINTER(_Objects)], ctypes.c_uint32),
        "subsetter_make_pdf_sheet": (
            [pointer] + [pointer, size] * 3 + [ctypes.c_uint32, ctypes.POINTER(_Objects)], ctypes.c_uint32),
        "subsetter_free_pdf_objects": ([ctypes.POINTER(_Objects)], None),
    }
    new = {
        "subsetter_make_font_by_words": (make_at[:5] + [pointer, size] * 4 + [ctypes.POINTER(_Font)], ctypes.c_uint32),
        "subsetter_free_font": ([ctypes.POINTER(_Font)], None),
        "subsetter_make_objects": ([pointer, ctypes.c_uint32, ctypes.POINTER(_Objects)], ctypes.c_uint32),
        "subsetter_pdf_part_count": ([pointer], ctypes.c_uint32),
        "subsetter_make_pdf_parts": ([pointer, pointer, size, ctypes.POINTER(_Parts)], ctypes.c_uint32),
        "subsetter_free_pdf_parts": ([ctypes.POINTER(_Parts)], None),
        "subsetter_codes_of": (
            [pointer, size] * 3 + [ctypes.c_uint32, pointer, size, ctypes.POINTER(size)], ctypes.c_uint32),
        "subsetter_advances_by_words": (
            make_at[:5] + [pointer, size] * 4 + [ctypes.POINTER(ctypes.c_uint32)], ctypes.c_uint32),
    }
    shows = [ctypes.c_uint32] * 3 + [ctypes.POINTER(_Objects)]
    for_runs = {
        "subsetter_new_text_by_words": (make_at[:5] + [pointer, size, ctypes.POINTER(_Text)], ctypes.c_uint32),
        "subsetter_free_text": ([ctypes.POINTER(_Text)], None),
        "subsetter_show_run": ([ctypes.POINTER(_Text), pointer, size, pointer, size] + shows, ctypes.c_uint32),
        "subsetter_show_shaped": (
            [ctypes.POINTER(_Text), pointer, size, pointer, size, ctypes.c_uint32] + shows, ctypes.c_uint32),
        "subsetter_make_text_font_by_words": (
            [ctypes.POINTER(_Text), pointer, size, ctypes.POINTER(_Font)], ctypes.c_uint32),
    }
    for_texts = {
        "subsetter_read_text": (
            make[:3] + [pointer, size, ctypes.POINTER(_Entry), size, pointer, size, ctypes.POINTER(_ReadSizes)], ctypes.c_uint32),
    }
    for_kinds = {"subsetter_glyph_kinds": (make[:3] + [pointer, size] * 2, ctypes.c_uint32)}
    for_sheets = {
        "subsetter_make_text_sheet": ([pointer, ctypes.POINTER(_Line), size, ctypes.POINTER(_Objects)], ctypes.c_uint32),
    }
    # (a library has all calls of a group or, if it is older than they are, none)
    groups: Dict[str, Any] = {
        "subsetter_glyphs_of": for_pdf, "subsetter_make_font_by_words": new, "subsetter_new_text_by_words": for_runs,
        "subsetter_read_text": for_texts, "subsetter_glyph_kinds": for_kinds, "subsetter_make_text_sheet": for_sheets,
    }
    for first, group in groups.items():
        if hasattr(library, first):
            declared.update(group)
    if hasattr(library, "subsetter_explain_by_words"):
        declared["subsetter_explain_by_words"] = (
            [ctypes.c_uint32] * 2 + make[:3] + [pointer, size] * 4 + [ctypes.POINTER(size)], ctypes.c_uint32)
    for name, (arguments, result) in declared.items():
        try:
            call = getattr(library, name)
        except AttributeError:
            raise OSError(f"{library._name} has no call {name}: it is of another version") from None
        call.argtypes, call.restype = arguments, result
    return library


_lock = threading.Lock()
_loaded: Optional[ctypes.CDLL] = None


def _new_lock() -> None:
    global _lock
    _lock = threading.Lock()


# (in a forked process the thread that may have held the lock isn't there to give it back)
if sys.platform != "win32":
    os.register_at_fork(after_in_child=_new_lock)


def _library() -> ctypes.CDLL:
    """The library, which the first call loads."""
    global _loaded
    with _lock:
        if _loaded is None:
            _loaded = _declare(_open())
        return _loaded


# ---- what is passed

class _View(ctypes.Structure):
    """`Py_buffer` of Python's C interface."""

    _fields_ = [
        ("buf", ctypes.c_void_p), ("obj", ctypes.c_void_p), ("len", ctypes.c_ssize_t), ("itemsize", ctypes.c_ssize_t),
        ("readonly", ctypes.c_int), ("ndim", ctypes.c_int), ("format", ctypes.c_char_p), ("shape", ctypes.c_void_p),
        ("strides", ctypes.c_void_p), ("suboffsets", ctypes.c_void_p), ("internal", ctypes.c_void_p),
    ]


# (by their names in brackets they are this module's alone: as attributes all share them, with what was declared last)
_get_buffer = ctypes.pythonapi["PyObject_GetBuffer"]
_get_buffer.argtypes, _get_buffer.restype = [ctypes.py_object, ctypes.POINTER(_View), ctypes.c_int], ctypes.c_int
_release_buffer = ctypes.pythonapi["PyBuffer_Release"]
_release_buffer.argtypes, _release_buffer.restype = [ctypes.POINTER(_View)], None
_SIMPLE = 0


@contextmanager
def _bytes_of(data: Buffer) -> Iterator[Tuple[Optional[int], int]]:
    """The address of the bytes of a buffer, and their count. Nobody can resize it meanwhile, and none are copied."""
    try:
        view = memoryview(data)
    except TypeError:
        raise TypeError(f'a font is its bytes, as open(path, "rb").read() has them, and no {type(data).__name__}') from None
    with view:
        if view.ndim != 1 or view.format.lstrip("@=<>!") not in ("B", "b", "c") or not view.contiguous:
            raise TypeError("a font is a buffer of bytes, one after the other")
        held = _View()
        _get_buffer(view, ctypes.byref(held), _SIMPLE)
        try:
            yield held.buf, held.len
        finally:
            _release_buffer(ctypes.byref(held))


def _each(items: Iterable[Any], wanted: str) -> Iterator[Any]:
    """The items of what is no text and no bytes."""
    try:
        if not isinstance(items, (str, bytes, bytearray, memoryview)):
            return iter(items)
    except TypeError:
        pass
    raise TypeError(f"{wanted}, and no {type(items).__name__}")


def _listed(items: Iterable[Any], wanted: str) -> List[Any]:
    return list(_each(items, wanted))


def _glyph_numbers(glyphs: Iterable[SupportsIndex]) -> array[int]:
    given = _each(glyphs, "glyphs are a list of ints, as [36, 68] (those of a text: [glyph for glyph, _ in glyphs_of(data, text)])")
    last: Any = None

    def read() -> Iterator[Any]:
        nonlocal last
        for last in given:
            yield last

    try:
        return array("H", map(operator.index, read()))
    except (TypeError, builtins.OverflowError) as error:
        wrong = error
    _number("a glyph", last, 0, 65535)
    raise wrong


def _shown(value: object) -> str:
    """A value as a message has it: of a long one the front. (Python writes no int of more than 4300 digits.)"""
    try:
        text = str(value)
    except ValueError:
        return "a number of too many digits"
    return text if len(text) <= 40 else f"{text[:40]}.."


def _number(what: str, value: SupportsIndex, least: int, most: int) -> int:
    try:
        number = operator.index(value)
    except TypeError:
        first = " (of a pair of glyphs_of the first is one)" if what == "a glyph" and isinstance(value, tuple) else ""
        raise TypeError(f"{what} is an int, and no {type(value).__name__}{first}") from None
    if not least <= number <= most:
        raise ValueError(f"{what} is from {least} to {most}, and not {_shown(number)}")
    return number


def _tag(tag: str) -> int:
    if not isinstance(tag, str):
        raise TypeError(f"the tag of an axis is a str, and no {type(tag).__name__}")
    if len(tag) != 4 or not tag.isascii():
        raise ValueError(f"the tag of an axis has four ASCII characters, and {tag!r} hasn't")
    return int.from_bytes(tag.encode("ascii"), "big")


def _infinity(value: Any) -> float:
    """The infinity with the sign of a value; NaN for one that can't be compared."""
    try:
        return math.inf if value > 0 else -math.inf
    except (ArithmeticError, TypeError, ValueError):
        return math.nan


def _fixed(tag: str, value: Value) -> int:
    """A value as the nearest number of 65536ths, a half rounded up; one past 32 bits is the nearest one within."""
    try:
        scaled = math.ldexp(value, 16)
    except TypeError:
        raise TypeError(f"the value of the axis {tag} is a number, and no {type(value).__name__}") from None
    except builtins.OverflowError:
        # (an int is past all floats, or the product is)
        scaled = _infinity(value)
        if not math.isnan(scaled):
            return 0x7FFFFFFF if scaled > 0 else -0x80000000
    except (ArithmeticError, ValueError):
        scaled = math.nan
    if not math.isfinite(scaled):
        raise ValueError(f"the value of the axis {tag} is {_shown(value)}, and no finite float")
    below = math.floor(scaled)
    return max(-0x80000000, min(below + (scaled - below >= 0.5), 0x7FFFFFFF))


def _coordinates(coordinates: Mapping[str, Value]) -> ctypes.Array[_Coordinate]:
    if not isinstance(coordinates, Mapping):
        raise TypeError(f"coordinates are a mapping of tags to numbers, and no {type(coordinates).__name__}")
    found = [_Coordinate(_tag(tag), _fixed(tag, value)) for tag, value in coordinates.items()]
    return (_Coordinate * len(found))(*found)


def _flag(what: str, value: bool) -> int:
    if not isinstance(value, bool):
        raise TypeError(f"{what} is True or False, and no {type(value).__name__}")
    return int(value)


def _words(
    tokens: Optional[SupportsIndex], depth: Optional[SupportsIndex], most_bytes: Optional[SupportsIndex], hinting: bool,
    names: bool, glyph_names: bool, small: bool,
) -> array[int]:
    """The options as the library takes them: their size in bytes, the limits of a charstring, what is left out, and the
    most bytes of the font. (Later ones go after these.)"""
    drop = _DROP_ALL * _flag("small", small)
    for name, kept, bit in (
        ("hinting", hinting, _DROP_HINTING), ("names", names, _DROP_NAMES),
        ("glyph_names", glyph_names, _DROP_GLYPH_NAMES),
    ):
        if not _flag(name, kept):
            drop |= bit
    return array("I", [
        20,
        0 if tokens is None else _number("tokens", tokens, 1, 0xFFFFFFFF),
        0 if depth is None else _number("depth", depth, 1, 255),
        drop,
        0 if most_bytes is None else _number("most_bytes", most_bytes, 1, 0xFFFFFFFF),
    ])


# ---- the calls

def _text(library: ctypes.CDLL, status: int) -> str:
    out, length = ctypes.create_string_buffer(64), ctypes.c_size_t()
    library.subsetter_error_text(status, out, len(out), ctypes.byref(length))
    return out.raw[:length.value].decode("ascii")


class _Asked(NamedTuple):
    """What a call was given of a font: its number for `subsetter_explain_by_words`, the font, the glyphs, the words of the options; what takes rights."""

    call: int
    font: Optional[int]
    size: int
    face: int
    glyphs: array[int]
    words: array[int]
    at: Any = ()
    of: str = ""


def _reason(library: ctypes.CDLL, status: int, asked: _Asked) -> str:
    """What the font shows of why a call was refused, or which limits there were; nothing where the library is older."""
    if _ERRORS[status] is OutOfMemory or not hasattr(library, "subsetter_explain_by_words"):
        return ""
    out, length, words = ctypes.create_string_buffer(128), ctypes.c_size_t(), array("I", [20, *asked.words[1:5]])
    done = library.subsetter_explain_by_words(
        asked.call, status, asked.font, asked.size, asked.face, asked.at or None, len(asked.at), asked.glyphs.buffer_info()[0],
        len(asked.glyphs), words.buffer_info()[0], len(words), out, len(out), ctypes.byref(length),
    )
    found = out.raw[:length.value].decode("utf-8", "replace") if done == 0 else ""
    if found and _ERRORS[status] is NotPermitted:
        return f'{found}: if you hold the rights, rights="held"{asked.of}'
    if found.startswith("CFF2: its outlines") and asked.call in (_SUBSET, _EMBED):
        return f"{found}: coordinates={{}} is the default"
    tokens = asked.words[1] if _ERRORS[status] is OverflowError else 0
    return found or (f"tokens is {tokens}" if tokens else "")


def _check(
    library: ctypes.CDLL, status: int, asked: Optional[_Asked] = None, fault: Callable[[], str] = str, excess: Callable[[], str] = str,
) -> None:
    """Raises the error of a status. `fault` says what is wrong with a text, or with numbers, and `excess` of what there is too much."""
    if status in _ERRORS:
        why = fault() if _ERRORS[status] is InvalidText else excess() if _ERRORS[status] is OverflowError else ""
        why = why or (_reason(library, status, asked) if asked else "")
        raise _ERRORS[status](": ".join(filter(None, (_text(library, status), why))))
    if status == 16:
        raise ValueError(f"numbers of objects are distinct and above 0, and as many as there are parts (part_count): {fault()}")
    if status != 0:
        raise RuntimeError(f"{_NAME} answers status {status}: it is of another version, or its own code failed")


_MAKES = [f"subsetter_make_{it}_by_words" for it in ("subset", "subset_at", "embedded", "embedded_at")]
_SUBSET, _EMBED, _PDF_FONT, _GLYPHS_OF, _ADVANCES = 0, 2, 4, 5, 6


@contextmanager
def _made(
    call: str, data: Buffer, glyphs: Iterable[SupportsIndex], index: SupportsIndex, words: array[int],
    coordinates: Optional[ctypes.Array[_Coordinate]] = None,
) -> Iterator[_Made]:
    """What a call of the library makes of a font; it is given back at the end."""
    numbers, face = _glyph_numbers(glyphs), _number("index", index, 0, 0xFFFFFFFF)
    library, made = _library(), _Made()
    place = () if coordinates is None else (coordinates, len(coordinates))
    with _bytes_of(data) as (font, size):
        status = getattr(library, call)(
            font, size, face, *place, numbers.buffer_info()[0], len(numbers), words.buffer_info()[0], len(words),
            ctypes.byref(made),
        )
        _check(library, status, _Asked(_MAKES.index(call), font, size, face, numbers, words, coordinates or ()))
    try:
        yield made
    finally:
        library.subsetter_free(ctypes.byref(made))


def subset(
    data: Buffer,
    glyphs: Iterable[SupportsIndex],
    index: SupportsIndex = 0,
    *,
    tokens: Optional[SupportsIndex] = None,
    depth: Optional[SupportsIndex] = None,
    most_bytes: Optional[SupportsIndex] = None,
    hinting: bool = True,
    names: bool = True,
    glyph_names: bool = True,
    coordinates: Optional[Mapping[str, Value]] = None,
    small: bool = False,
) -> bytes:
    """The subset of a font for glyph 0 and the given glyphs.

    `data` is the whole file, OpenType or a collection, as a buffer of bytes (bytes, bytearray, memoryview, mmap, an array of
    numpy's), which isn't copied and which nobody may write meanwhile; `index` is the face of a collection, from 0. `glyphs`
    are glyph numbers of the font from 0 to 65535, in any order, with repeats if need be. The new font has glyph 0, then the
    given glyphs in order, each once, and then each further glyph that these need as components.

    `tokens` and `depth` limit the charstring of a glyph (CFF outlines), for fonts that nobody vouches for: how many numbers
    and operators it may run for (1 to 4294967295, by default 1000000), and how deep it may call (1 to 255, by default 64).
    `most_bytes` bounds the new font (1 to 4294967295, by default no bound): `OverflowError` where it would have more bytes,
    raised before it is made.

    What a PDF doesn't need can be left out. Without `hinting` there are no instructions of TrueType outlines and no `cvt `,
    `fpgm` and `prep` (not for fonts that draw by their instructions, as MingLiU does); without `names` no `name`; without
    `glyph_names` `post` has version 3.0. `small` leaves out all three.

    `coordinates` are where a variable font is taken: the tags of axes with values in what the axes count, as
    {"wght": 650, "wdth": 87.5}. An axis without a value stays at its default, one past an axis's end is that end, and a tag
    that the font doesn't have is passed over: `pdf_font(data, [], coordinates=.., rights="held").unknown_axes` lists such
    tags. A value is taken as the nearest number of 65536ths, a half rounded up. Where the font is at its default, has no axes
    or has its outlines in `CFF `, it is subset as it is, with its hints; else the new font is a static one, each glyph a simple
    outline without instructions, and `tokens` bounds the steps of a glyph (one for each glyph that it leads to, each point, each
    tuple, and each point again of a tuple that counts). A font with outlines in `CFF2`, and neither `glyf` nor `CFF `, is made
    static at its default too, which is {}: the new font has outlines in a CID-keyed `CFF `, with their stems, and each
    coordinate is rounded once.

    Raises an `Error` by its name (with coordinates `MalformedFont` also where `fvar`, `avar`, `gvar` or `HVAR` is cut,
    `Unimplemented` also for an `avar` of another version than 1, and `OverflowError` for too many steps, or where a
    coordinate of `CFF2` doesn't fit its 16 bits); `TypeError` for
    arguments of another kind, and `ValueError` for numbers out of range, a value that is NaN or infinite, and a tag that
    hasn't four ASCII characters.
    """
    words = _words(tokens, depth, most_bytes, hinting, names, glyph_names, small)
    if coordinates is not None:
        place = _coordinates(coordinates)
        with _made("subsetter_make_subset_at_by_words", data, glyphs, index, words, place) as made:
            return ctypes.string_at(made.font, made.font_size)
    with _made("subsetter_make_subset_by_words", data, glyphs, index, words) as made:
        return ctypes.string_at(made.font, made.font_size)


def embed(
    data: Buffer,
    glyphs: Iterable[SupportsIndex],
    index: SupportsIndex = 0,
    *,
    tokens: Optional[SupportsIndex] = None,
    depth: Optional[SupportsIndex] = None,
    most_bytes: Optional[SupportsIndex] = None,
    hinting: bool = True,
    names: bool = True,
    glyph_names: bool = True,
    coordinates: Optional[Mapping[str, Value]] = None,
    small: bool = False,
) -> Embedded:
    """The subset of a font, the CID of each given glyph, and the width of each CID.

    The arguments and errors are those of `subset`; with `coordinates` a width is the advance that its glyph has there.
    Besides, `MalformedFont` is raised where the font has no `hmtx` or no `head`, or 0 units per em.
    """
    words = _words(tokens, depth, most_bytes, hinting, names, glyph_names, small)
    place = None if coordinates is None else _coordinates(coordinates)
    call = "subsetter_make_embedded_by_words" if place is None else "subsetter_make_embedded_at_by_words"
    with _made(call, data, glyphs, index, words, place) as made:
        return Embedded(
            ctypes.string_at(made.font, made.font_size), made.cids[:made.cid_count], made.widths[:made.width_count]
        )


# ---- all that a PDF has of a font


def _library_with(call: str) -> ctypes.CDLL:
    """The library, if it has a call."""
    library = _library()
    if not hasattr(library, call):
        raise NotImplementedError(
            f"{library._name} has no {call}: it is of an older version. "
            "`pip install ./bindings/python` in a clone builds one that has it."
        )
    return library


def _library_for_pdf() -> ctypes.CDLL:
    """The library, if it has the calls for PDF."""
    return _library_with("subsetter_glyphs_of")


_KINDS: Tuple[Literal["TrueType", "CFF", "OpenType"], ...] = ("TrueType", "CFF", "OpenType")
_USAGES: Tuple[Literal["unsaid", "installable", "editable", "preview_and_print", "restricted"], ...] = (
    "unsaid", "installable", "editable", "preview_and_print", "restricted",
)


def _choice(what: str, value: str, known: Tuple[str, ...]) -> int:
    wanted = f"{what} is one of {', '.join(known)}"
    if not isinstance(value, str):
        raise TypeError(f"{wanted}, and no {type(value).__name__}")
    if value not in known:
        raise ValueError(f"{wanted}, and not {value!r}")
    return known.index(value)


def _letters(tag: Optional[str]) -> Tuple[int, int]:
    """The words of a tag; 0 and 0 for none."""
    if tag is None:
        return 0, 0
    if not isinstance(tag, str):
        raise TypeError(f"a tag is a str, and no {type(tag).__name__}")
    if len(tag) != 6 or not all("A" <= it <= "Z" for it in tag):
        raise ValueError(f"a tag has six capitals, and {tag!r} hasn't")
    return int.from_bytes(tag[:3].encode("ascii"), "big"), int.from_bytes(tag[3:].encode("ascii"), "big")


def _characters(text: str) -> array[int]:
    """The characters of a text; the library refuses an unpaired surrogate."""
    if not isinstance(text, str):
        raise TypeError(f"a text is a str, and no {type(text).__name__}")
    return array("I", map(ord, text))


def _surrogate(characters: Iterable[int]) -> str:
    return next((f"U+{it:04X} is an unpaired surrogate" for it in characters if 0xD800 <= it < 0xE000), "")


class _Entries:
    """Glyphs with their texts, as the library takes them."""

    def __init__(self, shown: Iterable[Tuple[SupportsIndex, str]]) -> None:
        wanted = 'shown are pairs of a glyph and its text, as [(36, "A")] (glyphs_of makes them of a text)'
        given = _listed(shown, wanted)
        try:
            pairs = [(glyph, text) for glyph, text in given]
        except (TypeError, ValueError) as error:
            raise type(error)(wanted) from None
        self.glyphs, self.text, self.ends = _glyph_numbers([glyph for glyph, _ in pairs]), array("I"), array("Q")
        for _, text in pairs:
            self.text.extend(_characters(text))
            self.ends.append(len(self.text))

    def fault(self) -> str:
        return _surrogate(self.text) or "a text has more than 256 UTF-16 units"

    def excess(self, codes: Codes) -> str:
        """That there are too many for their codes."""
        texts = [self.text[start:end].tobytes() if codes == "each_text" else b"" for start, end in zip([0, *self.ends], self.ends)]
        count = len({it for it in zip(self.glyphs, texts) if it[0]})
        what = "pairs of a glyph and a text" if any(texts) else "glyphs"
        return f"{count} {what}, and at most 65534 besides glyph 0" if count > 65_534 else ""

    def arguments(self) -> Tuple[Any, ...]:
        glyphs, text, ends = self.glyphs, self.text, (ctypes.c_size_t * len(self.ends))(*self.ends)
        return (glyphs.buffer_info()[0], len(glyphs), text.buffer_info()[0], len(text), ends, len(ends))


class TextGlyphs(List[Tuple[int, str]]):
    """The glyphs of a text, each with its part of the text."""

    missing: List[int]
    """The places of what the font lacks, in order: controls, which have no entry, and characters whose entry has glyph 0."""


def glyphs_of(
    data: Buffer, text: str, index: SupportsIndex = 0, *, missing: Literal["glyph_0", "error"] = "glyph_0"
) -> TextGlyphs:
    """The glyph of each character of a text, by the font's table `cmap`, with the character: what `pdf_font` takes.

    The text isn't shaped: there are no ligatures, no kerning and no reordering, which Arabic or Devanagari need. A character
    that the font lacks gets glyph 0, and the list's `missing` has its place; with `missing="error"` it raises
    `MissingCharacters`. A character with a variation selector is one entry. A default ignorable (a soft hyphen, a joiner, a mark of
    direction) is text of the entry before it, or of the one after it where none is before. A control, as a tab or a line end, has
    no entry, and is among the missing. `data` and `index` are as for `subset`.

    Raises an `Error` by its name: what comes of opening the font, which needs no outlines, `NoCmap`, and `InvalidText` for an
    unpaired surrogate. `NotImplementedError` is raised where the library is of an older version.
    """
    is_strict = _choice("missing", missing, ("glyph_0", "error")) == 1
    characters, face = _characters(text), _number("index", index, 0, 0xFFFFFFFF)
    library, sizes, count = _library_with("subsetter_read_text"), _ReadSizes(), len(text)
    entries, places = (_Entry * count)(), (ctypes.c_size_t * count)()
    with _bytes_of(data) as (font, size):
        status = library.subsetter_read_text(
            font, size, face, characters.buffer_info()[0], count, entries, count, places, count, ctypes.byref(sizes),
        )
        asked = _Asked(_GLYPHS_OF, font, size, face, array("H"), array("I", [0] * 5))
        _check(library, status, asked, lambda: _surrogate(characters))
        why = _reason(library, 13, asked) if is_strict and sizes.missing else ""
    found = TextGlyphs((it.glyph, text[it.start:it.end]) for it in entries[:sizes.entries])
    found.missing = places[:sizes.missing]
    if is_strict and found.missing:
        each = sorted({text[at]: at for at in reversed(found.missing)}.values())
        first = ", ".join(f"U+{ord(text[at]):04X} at {at}" for at in each[:20])
        more = f", and {len(each) - 20} more" if len(each) > 20 else ""
        error = MissingCharacters(f"missing characters: {first}{more}{why and f': {why}'}")
        error.missing = found.missing
        raise error
    return found


def codes_of(shown: Iterable[Tuple[SupportsIndex, str]], codes: Codes = "consecutive") -> List[int]:
    """The code of each entry, in order, as `pdf_font` gives it: it takes no font, so that pages can be written first. Where a list
    goes on, the codes of the entries before stay.

    Raises `OverflowError` for more than 65,534 glyphs, or pairs of a glyph and a text, besides glyph 0, `InvalidText` for an
    unpaired surrogate, and `NotImplementedError` where the library is of an older version.
    """
    entries, kind = _Entries(shown), _choice("codes", codes, _CODES)
    library, length = _library_with("subsetter_codes_of"), ctypes.c_size_t()
    found = array("H", bytes(2 * len(entries.glyphs)))
    status = library.subsetter_codes_of(
        *entries.arguments(), kind, found.buffer_info()[0], len(found), ctypes.byref(length),
    )
    _check(library, status, None, lambda: _surrogate(entries.text), lambda: entries.excess(codes))
    return found.tolist()


def advances(
    data: Buffer,
    glyphs: Iterable[SupportsIndex],
    index: SupportsIndex = 0,
    *,
    coordinates: Optional[Mapping[str, Value]] = None,
    tokens: Optional[SupportsIndex] = None,
) -> Advances:
    """The advances of glyphs before the font is embedded: in the order given, in the font's units, exact, at `coordinates`.

    The arguments are those of `subset`. A glyph without a vertical advance has one of an em. Raises an `Error` by its name, as
    `pdf_font` does, but for `NotPermitted`; and `NotImplementedError` where the library is of an older version.
    """
    numbers, face = _glyph_numbers(glyphs), _number("index", index, 0, 0xFFFFFFFF)
    words, place = _words(tokens, None, None, True, True, True, False), _coordinates({} if coordinates is None else coordinates)
    library, units = _library_with("subsetter_advances_by_words"), ctypes.c_uint32()
    widths, heights = array("H", bytes(2 * len(numbers))), array("H", bytes(2 * len(numbers)))
    with _bytes_of(data) as (font, size):
        status = library.subsetter_advances_by_words(
            font, size, face, place, len(place), numbers.buffer_info()[0], len(numbers), words.buffer_info()[0], len(words),
            widths.buffer_info()[0], len(widths), heights.buffer_info()[0], len(heights), ctypes.byref(units),
        )
        _check(library, status, _Asked(_ADVANCES, font, size, face, numbers, words, place))
    return Advances(units.value, widths.tolist(), heights.tolist())


_GLYPH_KINDS: Tuple[GlyphKind, ...] = (
    "colr1", "colr0", "svg", "cbdt17", "cbdt18", "cbdt19", "cbdt", "sbix-png", "sbix-jpg", "sbix-tiff", "sbix-pdf", "sbix-mask",
    "sbix-dupe", "sbix", "ebdt", "outline", "empty",
)


def _kind_bits(library: ctypes.CDLL, font: Any, size: int, face: int, glyphs: array[int]) -> List[int]:
    """Of each glyph a number with a bit for each kind."""
    kinds = (ctypes.c_uint32 * len(glyphs))()
    status = library.subsetter_glyph_kinds(font, size, face, glyphs.buffer_info()[0], len(glyphs), kinds, len(kinds))
    _check(library, status, _Asked(_GLYPHS_OF, font, size, face, array("H"), array("I", [0] * 5)))
    return list(kinds)


def kinds_of(data: Buffer, glyphs: Iterable[SupportsIndex], index: SupportsIndex = 0) -> List[Tuple[GlyphKind, ...]]:
    """All kinds of pictures that a font has of each glyph, in the order in which a reader of OpenType prefers them: "colr1" (a paint
    of `COLR`), "colr0" (layers), "svg", "cbdt17" to "cbdt19" or "cbdt" by the format of an image, "sbix-png" and others or "sbix" by
    the type of a graphic, "ebdt", and last "outline" or "empty".

    A PDF shows the outline alone, so a glyph that is "empty" and has another picture is blank there. A picture is what a table
    lists, whether it can be drawn or not; a table that is cut or wrong lists none. The outline of a charstring is empty where it is
    endchar alone, with or without a width. The arguments are those of `subset`, and the font needs no outlines.

    Raises `UnknownKind` for what is no font, `MalformedFont` where its directory is cut or it has no such face, and
    `NotImplementedError` where the library is of an older version.
    """
    numbers, face = _glyph_numbers(glyphs), _number("index", index, 0, 0xFFFFFFFF)
    library = _library_with("subsetter_glyph_kinds")
    with _bytes_of(data) as (font, size):
        found = _kind_bits(library, font, size, face, numbers)
    return [tuple(kind for bit, kind in enumerate(_GLYPH_KINDS) if bits >> bit & 1) for bits in found]


_ITEMS = {"cids": "H", "codes": "H", "widths": "I", "columns": "i"}
_NUMBERS = 84
_LISTS = [(field, size) for (field, _), (size, _) in zip(_PdfFont._fields_[0:22:2], _PdfFont._fields_[1:22:2])]


def _lists(made: _PdfFont) -> Dict[str, Any]:
    """Copies of the lists of a font: bytes, or arrays."""
    found = {}
    for field, size in _LISTS:
        code = _ITEMS.get(field)
        each = 1 if code is None else array(code).itemsize * (3 if field == "columns" else 1)
        data = ctypes.string_at(getattr(made, field), each * getattr(made, size))
        found[field] = data if code is None else array(code, data)
    return found


def _numbers(made: _PdfFont) -> array[int]:
    """The numbers after them."""
    return array("I", bytes(made)[_PdfFont.kind.offset:_PdfFont.kind.offset + _NUMBERS])


def _place(data: bytes) -> Optional[int]:
    """Where bytes are in memory."""
    return ctypes.cast(ctypes.c_char_p(data), ctypes.c_void_p).value


def _with_lists(lists: Dict[str, Any], numbers: array[int]) -> _PdfFont:
    """The struct of a font of such copies, which have to stay as long as it is used."""
    made = _PdfFont()
    for field, size in _LISTS:
        items = lists[field]
        setattr(made, field, items.buffer_info()[0] if isinstance(items, array) else _place(items))
        setattr(made, size, len(items) // (3 if field == "columns" else 1))
    ctypes.memmove(ctypes.byref(made, _PdfFont.kind.offset), numbers.buffer_info()[0], _NUMBERS)
    return made


class PdfFont:
    """All that a PDF has of a font for the glyphs in use: what `pdf_font` and `PdfText.font` answer.

    An entry is a glyph in use with its text; the font of a `PdfText` has none. Lengths are in thousandths of the em, and sections
    those of ISO 32000-1.

    - `program`: the font program, in bytes.
    - `kind`: "TrueType", a file; "CFF", the bytes of `CFF ` alone; or "OpenType", a file with outlines in `CFF ` (9.9).
    - `glyph_count`: how many glyphs it has: its CIDs are the numbers below.
    - `cids`: the CID of each entry.
    - `codes`: the code of each entry, which strings hold in two bytes, the higher first.
    - `text_is_mapped`: of each entry whether readers find its text by its code; where they don't, the page says it by an
      ActualText (14.9.4).
    - `widths`: the width of each CID.
    - `default_width`: DW.
    - `columns`, `default_column`: in vertical writing of each CID from 0 on that a string can show, and DW2 (y and advance).
    - `descriptor`, `permission`, `to_unicode`: the font descriptor, what the font's maker permits, and ToUnicode (9.10.3).
    - `encoding`, `encoding_name`: the CMap from codes to CIDs; None where each code is its CID (`Identity-H` or `Identity-V`).
    - `cid_set`: the bytes of CIDSet, if it was chosen.
    - `cid_to_gid_map`: the bytes of CIDToGIDMap (9.7.4.2), where it is a stream.
    - `units_per_em`, `exact_widths`: how many units of the font an em has, and the width of each CID in these.
    - `unknown_axes`: those of the coordinates that the font doesn't have.
    - `unseen`: the places of the entries that are blank though the font has a picture of the glyph (`kinds_of`): its outline is
      empty, and a PDF shows nothing else.
    - `part_count`: how many objects it has.
    """

    program: bytes
    kind: Literal["TrueType", "CFF", "OpenType"]
    glyph_count: int
    cids: List[int]
    codes: List[int]
    text_is_mapped: List[bool]
    widths: List[int]
    default_width: int
    columns: Optional[List[Column]]
    default_column: Optional[Tuple[int, int]]
    descriptor: Descriptor
    permission: Permission
    to_unicode: bytes
    encoding: Optional[bytes]
    encoding_name: Optional[str]
    cid_set: Optional[bytes]
    cid_to_gid_map: Optional[bytes]
    units_per_em: int
    exact_widths: List[int]
    unknown_axes: List[str]
    unseen: List[int]
    part_count: int
    _is_of_text = False

    def __init__(self, made: _PdfFont, entries: _Entries, new: Optional[_Font]) -> None:
        # (what is written is written of these copies, which nothing else changes)
        self._kept: Optional[Tuple[Dict[str, Any], array[int], _Entries]] = (_lists(made), _numbers(made), entries)
        lists = self._kept[0]
        lists["cid_to_gid_map"] = b"" if new is None else ctypes.string_at(new.cid_to_gid_map, new.cid_to_gid_map_size)
        self.program = lists["program"]
        self.kind = _KINDS[made.kind]
        self.glyph_count = made.width_count
        self.cids, self.codes, self.widths = lists["cids"].tolist(), lists["codes"].tolist(), lists["widths"].tolist()
        self.text_is_mapped = [it == 1 for it in lists["is_said"]]
        self.default_width = made.default_width
        self.columns, self.default_column = None, None
        if made.is_vertical:
            self.columns = [Column(*it) for it in zip(*[iter(lists["columns"])] * 3)]
            self.default_column = (made.default_column[0], made.default_column[1])
        self.descriptor = Descriptor(
            font_name=lists["font_name"].decode("ascii"),
            flags=made.flags,
            bounds=(made.bounds[0], made.bounds[1], made.bounds[2], made.bounds[3]),
            italic_angle=made.italic_angle / 1000,
            ascent=made.ascent,
            descent=made.descent,
            cap_height=made.cap_height,
            x_height=made.x_height if made.has_x_height else None,
            stem_v=made.stem_v,
            font_weight=made.font_weight,
        )
        self.permission = Permission(_USAGES[made.usage], made.may_subset == 1, made.may_embed_outlines == 1)
        self.to_unicode = lists["to_unicode"]
        self.encoding = lists["encoding"] or None
        self.encoding_name = lists["encoding_name"].decode("ascii") or None
        self.cid_set = lists["cid_set"] or None
        self.cid_to_gid_map = lists["cid_to_gid_map"] or None
        if new is not None:
            self.units_per_em = new.units_per_em
            self.exact_widths = array("H", ctypes.string_at(new.exact_widths, 2 * new.exact_width_count)).tolist()
            axes = array("I", ctypes.string_at(new.unknown_axes, 4 * new.unknown_axis_count))
            self.unknown_axes = [it.to_bytes(4, "big").decode("ascii") for it in axes]
            self.part_count = _library().subsetter_pdf_part_count(ctypes.byref(new))

    def __getattr__(self, name: str) -> NoReturn:
        if name in ("units_per_em", "exact_widths", "unknown_axes", "unseen", "part_count"):
            raise NotImplementedError(f"the font is of a library of an older version, which says no {name}")
        raise AttributeError(f"a PdfFont has no {name}")

    @property
    def is_said(self) -> List[bool]:
        """`text_is_mapped`, by its older name."""
        warnings.warn("the name of is_said is text_is_mapped", DeprecationWarning, stacklevel=2)
        return self.text_is_mapped

    def close(self) -> None:
        """Gives back what `objects` and `sheet` are written of: they raise ValueError then. All else stays."""
        self._kept = None

    def __enter__(self) -> PdfFont:
        return self

    def __exit__(self, *_: object) -> None:
        self.close()

    def __repr__(self) -> str:
        return f"<PdfFont {self.descriptor.font_name}, {self.kind}, {self.glyph_count} glyphs>"

    def string(self, codes: Iterable[SupportsIndex]) -> bytes:
        """The string that shows these codes, as b"<00010002>"."""
        return b"<%s>" % b"".join(b"%04X" % _number("a code", it, 0, 65535) for it in _listed(codes, "codes are a list of ints"))

    def _struct(self) -> _Font:
        if self._kept is None:
            raise ValueError("the font is closed")
        lists, numbers, _ = self._kept
        data, pdf = lists["cid_to_gid_map"], _with_lists(lists, numbers)
        return _Font(size=ctypes.sizeof(_Font), pdf=pdf, cid_to_gid_map=_place(data), cid_to_gid_map_size=len(data))

    def _written(self, call: str, font: ctypes.Structure, *arguments: Any) -> Objects:
        library, made = _library_for_pdf(), _Objects()
        status = getattr(library, call)(ctypes.byref(font), *arguments, ctypes.byref(made))
        try:
            _check(library, status)
            return Objects(ctypes.string_at(made.bytes, made.size), made.offsets[:made.offset_count])
        finally:
            library.subsetter_free_pdf_objects(ctypes.byref(made))

    def objects(self, first: SupportsIndex) -> Objects:
        """The font's objects, whole, with numbers from `first` on: the Type 0 font, which pages name, its CIDFont, the font
        descriptor, the font program, ToUnicode, CIDToGIDMap if it is a stream, CIDSet if there is one, and the CMap if the file
        has its own.

        Streams have no filter, and it is for files that aren't encrypted. Raises `OverflowError` where seven numbers from
        `first` on, eight with a CIDToGIDMap as a stream, don't fit 32 bits.
        """
        number, font = _number("first", first, 1, 0xFFFFFFFF), self._struct()
        # (an older library has no such map)
        call, given = ("subsetter_make_objects", font) if font.cid_to_gid_map_size else ("subsetter_make_pdf_objects", font.pdf)
        try:
            return self._written(call, given, number)
        except OverflowError as error:
            raise OverflowError(f"{error}: the numbers from {number} on don't fit 32 bits") from None

    def parts(
        self, numbers: Iterable[SupportsIndex], *, compress: bool = False, pack: Optional[Callable[[bytes], bytes]] = None,
        filter: str = "/FlateDecode",
    ) -> List[Part]:
        """The font's objects as data, with numbers of the caller's: `part_count` of them, distinct and above 0, that of the Type 0
        font first. They are in the order of `objects`, and each has the `value` that is written there for the same numbers.

        `compress` packs each stream by zlib, or `pack` does, whose Filter is `filter`: "/FlateDecode", if nothing else is said.
        Raises `ValueError` for other numbers and for a filter that is no name or array of PDF, and `NotImplementedError` where the
        library is of an older version.
        """
        if _flag("compress", compress) and pack is None:
            pack = zlib.compress
        if pack is not None and not callable(pack):
            raise TypeError(f"pack is a function, and no {type(pack).__name__}")
        if not isinstance(filter, str):
            raise TypeError(f"filter is a str, and no {type(filter).__name__}")
        if not filter.isascii() or not filter.startswith(("/", "[")):
            raise ValueError(f'filter is as PDF writes it, as "/FlateDecode", and not {filter!r}')
        if pack is zlib.compress and "FlateDecode" not in filter:
            raise ValueError(f'compress packs by zlib, for "/FlateDecode": {filter!r} wants pack')
        wanted = "numbers of objects are a list of ints"
        given = array("I", [_number("a number of an object", it, 1, 0xFFFFFFFF) for it in _listed(numbers, wanted)])
        font = self._struct()
        library, made = _library_with("subsetter_make_pdf_parts"), _Parts()
        status = library.subsetter_make_pdf_parts(ctypes.byref(font), given.buffer_info()[0], len(given), ctypes.byref(made))
        try:
            _check(library, status, None, lambda: f"{len(given)}, of them {len(set(given))} distinct, for {self.part_count}")
            found = [
                Part(
                    _ROLES[it.role], it.number, ctypes.string_at(it.entries, it.entries_size),
                    [(string.start, string.end) for string in it.strings[:it.string_count]],
                    ctypes.string_at(it.stream, it.stream_size) if it.is_stream else None,
                )
                for it in made.parts[:made.part_count]
            ]
        finally:
            library.subsetter_free_pdf_parts(ctypes.byref(made))
        if pack is None:
            return found
        said = b"/Filter %s " % filter.encode("ascii")
        packed = [it if it.stream is None else it._replace(entries=it.entries + said, stream=pack(it.stream)) for it in found]
        for was, it in zip(found, packed):
            if was.stream is not None and not isinstance(it.stream, bytes):
                raise TypeError(f"pack answers bytes, and no {type(it.stream).__name__}")
        return packed

    def sheet(self, layout: Literal["line", "grid"] = "line") -> bytes:
        """A whole PDF file that shows the entries in 36 points: in one line (in vertical writing in one column) on a page that
        is as long, or in a grid, 12 by 16 a page. `ValueError` for the font of a `PdfText`, which has none."""
        number = _choice("layout", layout, ("line", "grid"))
        if self._is_of_text:
            raise ValueError("the font of a PdfText has no entries: PdfText.sheet shows runs")
        font = self._struct()
        entries = self._kept[2].arguments() if self._kept else ()
        return self._written("subsetter_make_pdf_sheet", font.pdf, *entries, number).bytes


def _rights(rights: Rights) -> int:
    if rights == "as_said":
        warnings.warn('the name of "as_said" is "from_font"', DeprecationWarning, stacklevel=3)
        return 0
    return _choice("rights", rights, ("from_font", "held"))


def _pdf_words(
    words: array[int], program: int, codes: int, vertical: bool, bounds: Bounds, cid_set: bool, rights: int, tag: Optional[str],
) -> array[int]:
    """The options of a font for a PDF as the library takes them."""
    further = [
        program, codes, _flag("vertical", vertical), _choice("bounds", bounds, ("font", "kept")), _flag("cid_set", cid_set), rights,
        *_letters(tag),
    ]
    return array("I", [52, *words[1:], *further])


def pdf_font(
    data: Buffer,
    shown: Iterable[Tuple[SupportsIndex, str]],
    index: SupportsIndex = 0,
    *,
    tokens: Optional[SupportsIndex] = None,
    depth: Optional[SupportsIndex] = None,
    most_bytes: Optional[SupportsIndex] = None,
    hinting: bool = True,
    coordinates: Optional[Mapping[str, Value]] = None,
    program: Literal["smallest", "opentype"] = "smallest",
    codes: Codes = "consecutive",
    vertical: bool = False,
    bounds: Bounds = "font",
    cid_set: bool = False,
    tag: Optional[str] = None,
    rights: Rights = "from_font",
    small: bool = False,
) -> PdfFont:
    """All that a PDF has of a font for the glyphs in use.

    `shown` are glyphs in order of use, each with its text: (36, "A"), a ligature (5, "fi"), or (7, "") without a text; repeats
    if need be. The other arguments are as for `subset`, and names of the font and of its glyphs are never kept. Besides:

    - `program`: of a font with outlines in `CFF ` the "smallest", the bytes of `CFF ` alone, or "opentype", the whole file.
    - `codes`: "consecutive", the CIDs, from 1 on; "source", the glyph's number in the font; or "each_text", one for each pair
      of glyph and text, so that one glyph can say "B" and "b".
    - `vertical`: whether text runs from top to bottom.
    - `bounds`: whether FontBBox holds all glyphs of the "font", or those "kept".
    - `cid_set`: whether there is a CIDSet, which PDF/A-1 demands.
    - `tag`: the six capitals in front of the font's name; without them they are computed of the font program.
    - `rights`: by `fsType` of the table `OS/2`, "from_font", or "held" by the caller, whatever that says.

    Raises an `Error` by its name: those of `embed`, `BitmapsAlone`, `NotPermitted`, and `InvalidText` for a text of more than 256
    UTF-16 units or with an unpaired surrogate. No value of the font descriptor is a reason: where a table is missing or cut, another
    source of the value is taken. `NotImplementedError` is raised as by `glyphs_of`.
    """
    words = _pdf_words(
        _words(tokens, depth, most_bytes, hinting, True, True, small), _choice("program", program, ("smallest", "opentype")),
        _choice("codes", codes, _CODES), vertical, bounds, cid_set, _rights(rights), tag,
    )
    entries, face = _Entries(shown), _number("index", index, 0, 0xFFFFFFFF)
    place = _coordinates({} if coordinates is None else coordinates)
    library = _library_for_pdf()
    given = (place, len(place), *entries.arguments(), words.buffer_info()[0], len(words))
    if hasattr(library, "subsetter_make_font_by_words"):
        made = _Font(size=ctypes.sizeof(_Font))
        try:
            with _bytes_of(data) as (font, size):
                status = library.subsetter_make_font_by_words(font, size, face, *given, ctypes.byref(made))
                asked = _Asked(_PDF_FONT, font, size, face, entries.glyphs, words, place)
                _check(library, status, asked, entries.fault, lambda: entries.excess(codes))
                has_kinds = hasattr(library, "subsetter_glyph_kinds")
                kinds = _kind_bits(library, font, size, face, entries.glyphs) if has_kinds else None
            found = PdfFont(made.pdf, entries, made)
            if kinds is not None:
                # (the highest bit is that of an empty outline)
                found.unseen = [place for place, bits in enumerate(kinds) if bits > 1 << _GLYPH_KINDS.index("empty")]
            return found
        finally:
            library.subsetter_free_font(ctypes.byref(made))
    older = _PdfFont()
    with _bytes_of(data) as (font, size):
        status = library.subsetter_make_pdf_font_by_words(font, size, face, *given, ctypes.byref(older))
    try:
        _check(library, status, None, entries.fault)
        return PdfFont(older, entries, None)
    finally:
        library.subsetter_free_pdf_font(ctypes.byref(older))


# ---- runs of shaped text


class GlyphInfo(Protocol):
    """A glyph as HarfBuzz gives it: of uharfbuzz's `buffer.glyph_infos`."""

    @property
    def codepoint(self) -> int:
        """The number of the glyph in the font."""

    @property
    def cluster(self) -> int:
        """How many units of the text are before its cluster."""


class GlyphPosition(Protocol):
    """Where it goes, in the font's units: of uharfbuzz's `buffer.glyph_positions`."""

    @property
    def x_advance(self) -> int: ...

    @property
    def y_advance(self) -> int: ...

    @property
    def x_offset(self) -> int: ...

    @property
    def y_offset(self) -> int: ...


_PLACES = ("x_advance", "y_advance", "x_offset", "y_offset")
_ITEM, _SHAPED = struct.Struct("=4I4i").pack, struct.Struct("=2I4i").pack
_SAYS_NOTHING = 0xFFFFFFFF


def _packed(pack: Callable[..., bytes], rows: List[Tuple[Any, ...]], names: Tuple[str, ...]) -> bytes:
    """Rows of numbers of 32 bits, of which the last four are signed."""
    try:
        return b"".join([pack(*row) for row in rows])
    except struct.error:
        for row in rows:
            for name, value in zip(names, row):
                _number(name, value, *((-0x80000000, 0x7FFFFFFF) if name in _PLACES else (0, 0xFFFFFFFF)))
        raise


def _no_glyph(glyph: int, count: int) -> str:
    return f"glyph {glyph}: " + (f"the font's glyphs are 0 to {count - 1}" if count else "the font has no glyph")


def _unlaid(texts: Iterable[str]) -> str:
    """Why a run of clusters with these texts isn't laid out."""
    if any(len(it.encode("utf-16-le", "surrogatepass")) > 2 * 16_382 for it in texts):
        return "a text that needs an ActualText has more than 16382 UTF-16 units"
    return "a glyph or the pen is further away than 32 bits count"


def _cluster_fault(text: str, width: int, clusters: List[int], direction: str) -> str:
    """What is wrong with cluster numbers that count units of `width` bits, or with a run of them."""
    begins, at = {}, 0
    for place, it in enumerate(text):
        begins[at] = place
        at += 8 * len(it.encode("utf-8" if width == 8 else f"utf-{width}-le", "surrogatepass")) // width
    wrong = [it for it in clusters if it not in begins]
    if wrong:
        return f"cluster {wrong[0]} isn't where a character begins in a text of {at} units"
    for one, other in zip(clusters, clusters[1:]):
        if other < one if direction != "rtl" else other > one:
            return f"cluster {other} comes after cluster {one}, and direction is {direction}"
    places = [*sorted(begins[it] for it in set(clusters)), len(text)]
    return _unlaid(text[start:end] for start, end in zip(places, places[1:]))


def _thousandths(size: Value) -> int:
    try:
        scaled = 1000 * math.ldexp(size, 0)
    except TypeError:
        raise TypeError(f"size is a number, and no {type(size).__name__}") from None
    except builtins.OverflowError:
        scaled = math.inf
    if not 0 <= scaled <= 0xFFFFFFFF:
        raise ValueError(f"size is from 0 to 4294967.295, and not {_shown(size)}")
    return round(scaled)


class Run(bytes):
    """What shows a run of a `PdfText`: operators for a content stream.

    - `advance`: how far the pen goes on, in thousandths of the em; downwards it is below 0.
    """

    advance: int
    _text: int
    _size: int


class PdfText:
    """Text of a font in a PDF: runs of glyphs that HarfBuzz has shaped, so that readers copy and find it, and then the font that they want.

        text = subsetter.PdfText(data)
        uharfbuzz.shape(font, buffer)  # of buffer.add_str("office")
        line = text.shaped("office", buffer.glyph_infos, buffer.glyph_positions, size=12)
        page = b"BT /F1 12 Tf 72 720 Td %s ET" % line
        made = text.font()  # .objects(5), .parts(numbers)

    `data`, `index`, `coordinates` and the limits are as for `subset`, `vertical` and `rights` as for `pdf_font`. The buffer of `data` is
    held until the text is closed or forgotten.

    - `order`: how a run from right to left is written: "visual", as it is seen, which more readers copy rightly; or "logical", as it is
      read, for a tagged PDF.
    - `own_glyphs`: whether runs make glyphs of their own, which the font gets after the kept ones: of glyphs of it, each at a place,
      with an advance; with `CFF ` of one alone. More readers copy and find the text then. They are made in horizontal text.
    - `units_per_em`: how many units of the font an em has.

    Raises what `advances` does; and `NotImplementedError` where the library is of an older version.
    """

    units_per_em: int
    _serials = itertools.count()

    def __init__(
        self,
        data: Buffer,
        index: SupportsIndex = 0,
        coordinates: Optional[Mapping[str, Value]] = None,
        *,
        vertical: bool = False,
        rights: Rights = "from_font",
        order: Literal["visual", "logical"] = "visual",
        own_glyphs: bool = True,
        tokens: Optional[SupportsIndex] = None,
        depth: Optional[SupportsIndex] = None,
        most_bytes: Optional[SupportsIndex] = None,
    ) -> None:
        place = _coordinates({} if coordinates is None else coordinates)
        self._data, self._index, self._coordinates = data, _number("index", index, 0, 0xFFFFFFFF), dict(coordinates or {})
        self._limits, self._vertical, self._serial = (tokens, depth, most_bytes), vertical, next(PdfText._serials)
        self._rights, self._order = _rights(rights), _choice("order", order, ("visual", "logical"))
        words = self._words(True, False, "font", False, None)
        if not _flag("own_glyphs", own_glyphs):
            words = array("I", [words[0] + 4, *words[1:], 1])
        self._library, self._lock = _library_with("subsetter_new_text_by_words"), threading.Lock()
        self._text = _Text(size=ctypes.sizeof(_Text))
        with ExitStack() as held:
            self._font = held.enter_context(_bytes_of(data))
            status = self._library.subsetter_new_text_by_words(
                *self._font, self._index, place, len(place), words.buffer_info()[0], len(words), ctypes.byref(self._text))
            _check(self._library, status, _Asked(_ADVANCES, *self._font, self._index, array("H"), words, place))
            held.callback(self._library.subsetter_free_text, ctypes.byref(self._text))
            self._give_back = weakref.finalize(self, held.pop_all().close)
        self.units_per_em, self._glyph_count = self._text.units_per_em, self._text.metric_count

    def _words(self, hinting: bool, small: bool, bounds: Bounds, cid_set: bool, tag: Optional[str]) -> array[int]:
        return _pdf_words(
            _words(*self._limits, hinting, True, True, small), 0, 0, self._vertical, bounds, cid_set, self._rights, tag,
        )

    @contextmanager
    def _opened(self) -> Iterator[ctypes._CArgObject]:
        """The text, for one call at a time."""
        with self._lock:
            if not self._give_back.alive:
                raise ValueError("the text is closed")
            yield ctypes.byref(self._text)

    def close(self) -> None:
        """Gives the memory of the text back, and the buffer: its calls raise ValueError then. Fonts that it made stay."""
        with self._lock:
            self._give_back()

    def __reduce__(self) -> NoReturn:
        raise TypeError("a PdfText can't be copied or pickled; its fonts can")

    def __enter__(self) -> PdfText:
        return self

    def __exit__(self, *_: object) -> None:
        self.close()

    @property
    def codes(self) -> List[Tuple[Optional[int], Optional[str]]]:
        """What each code from 1 on draws and says, of the runs so far: a glyph, or None for a blank, and a character, or None.
        Own glyphs have the numbers after those of the font's."""
        with self._opened():
            words = array("I", ctypes.string_at(self._text.pairs, 12 * self._text.pair_count))
        return [
            (None if kind else glyph, None if character == _SAYS_NOTHING else chr(character))
            for kind, glyph, character in zip(*[iter(words)] * 3)
        ]

    def advances(self, glyphs: Iterable[SupportsIndex]) -> List[int]:
        """The advances of glyphs in thousandths of the em, as W has them."""
        numbers = _glyph_numbers(glyphs)
        with self._opened():
            count = self._text.metric_count
            if numbers and max(numbers) >= count:
                raise MalformedFont(f"malformed font: {_no_glyph(max(numbers), count)}")
            return [self._text.metrics[it].displacement for it in numbers]

    def run(self, items: Iterable[Item], direction: Optional[Direction] = None, size: Value = 12) -> Run:
        """What shows a run of glyphs, for a content stream: between BT and ET, after Tf and Td or Tm, where Tc, Tw and Ts are 0 and Tz
        is 100. The pen goes on by the run's `advance`.

        `items` are the glyphs in the order in which they are seen: (glyph, text, x_advance, y_advance, x_offset, y_offset) in the
        font's units, as a shaper has them, or (glyph, text), with the font's own advance. The text is that of a cluster, at its
        first glyph, and None at each other one. `direction` is "ltr", which is the default, or "rtl"; of a vertical text "ttb".
        `size` is that of Tf.

        Raises `InvalidText` where the first item continues a cluster, a glyph isn't the font's (of (glyph, text): `MalformedFont`), the
        pen leaves the line, a text has an unpaired surrogate, or one that needs an ActualText is too long; `Overfull`; and `ValueError`
        for another direction or size.
        After an error the text is as it was.
        """
        wanted = 'items are (glyph, text) or (glyph, text, x_advance, y_advance, x_offset, y_offset), as [(36, "fi"), (5, None)]'
        characters, own = array("I"), []
        rows: List[Tuple[Any, ...]] = []
        for it in _listed(items, wanted):
            try:
                glyph, text, *places = it
            except (TypeError, ValueError):
                raise ValueError(wanted) from None
            if len(places) not in (0, 4):
                raise ValueError(wanted)
            start = len(characters)
            if text is not None:
                characters.extend(_characters(text))
            if not places:
                own.append((len(rows), glyph))
            rows.append((_number("a glyph", glyph, 0, 65535), text is None, start, len(characters), *places))
        if own:
            found = advances(self._data, [glyph for _, glyph in own], self._index, coordinates=self._coordinates, tokens=self._limits[0])
            for (place, glyph), width, height in zip(own, found.widths, found.heights):
                rows[place] += (0, -height, 0, self._above(glyph)) if self._vertical else (width, 0, 0, 0)

        def fault(_: str) -> str:
            if rows and rows[0][1]:
                return "the first item continues a cluster, as its text is None"
            return self._fault(rows, characters) or _unlaid("".join(map(chr, characters[row[2]:row[3]])) for row in rows)

        given = _packed(_ITEM, rows, ("a glyph", "", "", "", *_PLACES))
        return self._shown("subsetter_show_run", direction, size, rows, fault, given, len(rows), characters.buffer_info()[0], len(characters))

    def _fault(self, rows: List[Tuple[Any, ...]], characters: Iterable[int]) -> str:
        """What is wrong with the glyphs or the characters of a run."""
        across = -4 if self._vertical else -3
        for row in rows:
            if row[0] >= self._glyph_count:
                return _no_glyph(row[0], self._glyph_count)
            if row[across]:
                return f"{_PLACES[across]} is {row[across]}, and 0 in {'vertical' if self._vertical else 'horizontal'} text"
        return _surrogate(characters)

    def _above(self, glyph: SupportsIndex) -> int:
        """How far the origin of a glyph is above the pen in a column, in the font's units."""
        number = operator.index(glyph)
        with self._opened():
            # (a font may have more outlines than `maxp` counts; the library refuses such a glyph)
            position: int = self._text.metrics[number].position if number < self._glyph_count else 0
        return (1000 - 2 * position * self.units_per_em) // 2000

    def shaped(
        self, text: str, infos: Iterable[GlyphInfo], positions: Iterable[GlyphPosition], direction: Optional[Direction] = None,
        size: Value = 12, *, units: Literal["utf8", "utf16", "utf32"] = "utf32",
    ) -> Run:
        """The same of what uharfbuzz has made of a text: `infos` are its `buffer.glyph_infos`, and `positions` its
        `buffer.glyph_positions`, where the font's scale is units per em.

        A cluster's text goes from its number to the next greater one of the run, or to the end. The numbers count characters, as after
        `buffer.add_str`; else `units` say what: "utf8" after `add_utf8`, or "utf16". `InvalidText` is also raised where a number
        isn't where a character begins, or numbers fall in reading order.
        """
        wanted = ("infos have codepoint and cluster, and positions, as many, x_advance, y_advance, x_offset and y_offset, as uharfbuzz's "
                  "buffer.glyph_infos and buffer.glyph_positions")
        each = _listed(infos, wanted), _listed(positions, wanted)
        if len(each[0]) != len(each[1]):
            raise ValueError(f"{wanted}: {len(each[0])} and {len(each[1])}")
        try:
            rows = [(info.codepoint, info.cluster, *(getattr(place, it) for it in _PLACES)) for info, place in zip(*each)]
        except AttributeError as error:
            raise TypeError(f"{wanted}: {error}") from None
        width = 8 << _choice("units", units, ("utf8", "utf16", "utf32"))
        if not isinstance(text, str):
            raise TypeError(f"a text is a str, and no {type(text).__name__}")
        order = "" if width == 8 else f"-{sys.byteorder[0]}e"
        encoded = text.encode(f"utf-{width}{order}", "surrogatepass")

        def fault(direction: str) -> str:
            return self._fault(rows, map(ord, text)) or _cluster_fault(text, width, [row[1] for row in rows], direction)

        given = _packed(_SHAPED, rows, ("a codepoint", "a cluster", *_PLACES))
        return self._shown("subsetter_show_shaped", direction, size, rows, fault, given, len(rows), encoded, 8 * len(encoded) // width, width)

    def _shown(
        self, call: str, direction: Optional[Direction], size: Value, rows: List[Tuple[Any, ...]], fault: Callable[[str], str], *given: Any
    ) -> Run:
        known = _DIRECTIONS[2:] if self._vertical else _DIRECTIONS[:2]
        number = _DIRECTIONS.index(known[_choice("direction", known[0] if direction is None else direction, known)])
        thousandths, made = _thousandths(size), _Objects()
        with self._opened() as text:
            status = getattr(self._library, call)(text, *given, number, self._order, thousandths, ctypes.byref(made))
        try:
            _check(self._library, status, None, lambda: fault(_DIRECTIONS[number]))
            run = Run(ctypes.string_at(made.bytes, made.size))
            length = sum(operator.index(row[-3 if self._vertical else -4]) for row in rows)
            run.advance = (2000 * length + self.units_per_em) // (2 * self.units_per_em)
            run._text, run._size = self._serial, thousandths
            return run
        finally:
            self._library.subsetter_free_pdf_objects(ctypes.byref(made))

    def font(
        self, *, hinting: bool = True, small: bool = False, bounds: Bounds = "font", cid_set: bool = False, tag: Optional[str] = None,
    ) -> PdfFont:
        """All that a PDF has of the font, for the runs so far; it may be asked again after further ones. The choices and errors are those
        of `pdf_font`."""
        words, made = self._words(hinting, small, bounds, cid_set, tag), _Font(size=ctypes.sizeof(_Font))
        with self._opened() as text:
            status = self._library.subsetter_make_text_font_by_words(text, words.buffer_info()[0], len(words), ctypes.byref(made))
        try:
            glyphs = array("H", [glyph or 0 for glyph, _ in self.codes if status])
            place = _coordinates(self._coordinates if status else {})
            _check(self._library, status, _Asked(_PDF_FONT, *self._font, self._index, glyphs, words, place, " of PdfText"))
            font = PdfFont(made.pdf, _Entries([]), made)
            font.unseen, font._is_of_text = [], True
            return font
        finally:
            self._library.subsetter_free_font(ctypes.byref(made))

    def sheet(
        self, runs: Iterable[Run], *, hinting: bool = True, small: bool = False, bounds: Bounds = "font", cid_set: bool = False,
        tag: Optional[str] = None,
    ) -> bytes:
        """A whole PDF file of runs of this text, each on a page of its own, with the font for the runs so far. The font has 36 points
        there, and so has to be `size` of the runs: `ValueError` for another, and for a run of another text. The choices and other
        errors are those of `font`."""
        wanted = "runs are a list of what `run` and `shaped` have answered"
        lines = _listed(runs, wanted)
        if not all(isinstance(it, Run) for it in lines):
            raise TypeError(wanted)
        for it in lines:
            if it._text != self._serial:
                raise ValueError("a run is of another PdfText")
            if it._size != 36_000:
                raise ValueError(f"the size of a run is {it._size / 1000:g}, and 36 on a sheet")
        _library_with("subsetter_make_text_sheet")
        font = self.font(hinting=hinting, small=small, bounds=bounds, cid_set=cid_set, tag=tag)
        given = (_Line * len(lines))(*[_Line(_place(it), len(it), abs(it.advance)) for it in lines])
        return font._written("subsetter_make_text_sheet", font._struct(), given, len(given)).bytes
