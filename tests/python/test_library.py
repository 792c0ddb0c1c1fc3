"""Where the library is looked for and what is refused of one; the module in threads and forked processes."""

import concurrent.futures
import ctypes
import os
import re
import shutil

import pytest
import subsetter
import support
from common import MODULE, child, made, read_rows

ROWS = read_rows()[0]

# Says which library is loaded, or why none is.
LOADED = """
import os, subsetter
assert "subsetter.so" not in open("/proc/self/maps").read(), "it is loaded before the first call"
try:
    subsetter.subset(b"", [])
except subsetter.UnknownKind:
    maps = {line.split()[-1] for line in open("/proc/self/maps") if line.count("/") and "subsetter" in os.path.basename(line)}
    print(*[path for path in maps if "subsetter" in os.path.basename(path)])
except (OSError, RuntimeError) as error:
    assert error.__cause__ is None and (error.__context__ is None or error.__suppress_context__)
    print(error)
"""


@pytest.fixture
def places(tmp_path):
    """A module of its own, and the places where it looks for the library, the first one last."""
    inside = tmp_path / "bindings/python"
    shutil.copytree(MODULE / "subsetter", inside / "subsetter", ignore=shutil.ignore_patterns("__pycache__", "*.so"))
    found = [tmp_path / "system/libsubsetter.so", tmp_path / "bindings/c/out/libsubsetter.so", inside / "subsetter/libsubsetter.so", tmp_path / "named_subsetter.so"]
    for path in found:
        path.parent.mkdir(parents=True, exist_ok=True)

    def loaded(named="", program=LOADED, folder="/"):
        return child(program, path=inside, folder=folder, SUBSETTER_LIBRARY=named, LD_LIBRARY_PATH=found[0].parent)
    return found, loaded


def test_places(places):
    (system, built, beside, named), loaded = places
    assert re.fullmatch(rf"libsubsetter.so isn't found.*\n  {beside} isn't there\n  {built} isn't there\n  the system's loader.*\n.*`make` in bindings/c.*\n", loaded())
    for path in (system, built, beside):
        shutil.copy(os.environ["SUBSETTER_LIBRARY"], path)
        assert loaded() == f"{path}\n"
    shutil.copy(os.environ["SUBSETTER_LIBRARY"], named)
    assert loaded(named) == loaded(named.name, folder=named.parent) == f"{named}\n"
    missing = f"{named.parent}/missing.so"
    assert loaded(missing).startswith(f"SUBSETTER_LIBRARY names {missing}, which can't be loaded: ")
    # One that can't be loaded doesn't end the search.
    beside.write_bytes(b"no library")
    assert loaded() == f"{built}\n" and loaded(beside).startswith(f"SUBSETTER_LIBRARY names {beside}, which can't be loaded: ")
    built.write_bytes(b"no library")
    assert loaded() == f"{system}\n"
    system.unlink()
    assert f"  {beside}: {beside}: " in loaded() and f"  {built}: {built}: " in loaded()


@pytest.mark.parametrize("system, name", [("freebsd14", "libsubsetter.so"), ("darwin", "libsubsetter.dylib"), ("win32", "subsetter.dll")])
def test_systems(places, system, name):
    """(A library of this machine loads under each name. Windows has no call for what a fork leaves.)"""
    beside, loaded = places[0][2].parent / name, places[1]
    front = f"import sys, os, ctypes, threading, typing; sys.platform = {system!r}; {'del os.register_at_fork' * (system == 'win32')}\n"
    assert f"{beside} isn't there" in loaded(program=front + LOADED)
    shutil.copy(os.environ["SUBSETTER_LIBRARY"], beside)
    assert loaded(program=front + LOADED) == f"{beside}\n"


CALLS = ["make_subset_by_words", "make_embedded_by_words", "make_subset_at_by_words", "make_embedded_at_by_words", "error_text", "free"]
FOR_PDF = """
import subsetter
for call, *arguments in ((subsetter.subset, b"", []), (subsetter.glyphs_of, b"", "A"), (subsetter.pdf_font, b"", [(1, "A")]), (subsetter.glyphs_of, b"", 5)):
    try:
        call(*arguments)
    except Exception as error:
        print(type(error).__name__, end=" ")
"""


def test_libraries_of_other_versions(places):
    named, loaded = places[0][3], places[1]

    def other(calls, status, program=LOADED):
        named.with_suffix(".c").write_text("\n".join(f"unsigned subsetter_{name}(void) {{ return {status}; }}" for name in calls))
        support.library(named.stem, named.with_suffix(".c"), named.parent)
        return loaded(named, program=program)
    assert "answers status 99: it is of another version" in other(CALLS, 99)
    # (what the first call refuses the second refuses, too)
    assert other(CALLS[:-1], 99, LOADED + LOADED[LOADED.index("try:"):]).count(f"{named} has no call subsetter_free: it is of another version\n") == 2
    assert other(CALLS, 2, FOR_PDF) == "MalformedFont NotImplementedError NotImplementedError TypeError "
    assert other([*CALLS, "glyphs_of"], 2, FOR_PDF) == "OSError OSError OSError TypeError "


# ---- threads

def test_threads_answer_alike():
    """(Python's lock is held by a PyDLL alone: other threads go on while a call runs.)"""
    assert not isinstance(subsetter._library(), ctypes.PyDLL)
    few = [row for row in ROWS if isinstance(row.wanted, bytes) and len(row.glyphs) < 1000 and 0 not in row.choices.values()]
    font = subsetter.pdf_font(made("made.ttf"), [(1, "A"), (5, "fi")])
    pdf = font.objects(4), font.sheet()

    def wrong(_):
        found = [row.name for row in few if subsetter.subset(row.font, row.glyphs, row.index, **row.choices) != row.wanted]
        return found + ["PDF" for _ in range(10) if (font.objects(4), font.sheet()) != pdf]

    with concurrent.futures.ThreadPoolExecutor(3) as threads:
        assert len(few) > 100 and not any(threads.map(wrong, range(60)))


def test_two_first_calls_at_once():
    """The second waits until the library is declared."""
    assert child("""
        import subsetter, threading
        declare, begun, found = subsetter._declare, threading.Event(), []

        def slow(library):
            begun.set()
            other.join(0.3)
            return declare(library)

        def call():
            begun.wait()
            found.append(subsetter._library().subsetter_free.argtypes)

        subsetter._declare = slow
        other = threading.Thread(target=call)
        other.start()
        subsetter._library()
        other.join()
        print(found[0] is not None, subsetter._library() is subsetter._library())
    """) == "True True\n"


# ---- forked processes

def test_forked_processes():
    """What was loaded and made before is there in both, also where another thread was about to load the library."""
    assert child("""
        import os, signal, threading
        from programs import *

        def forked(run):
            child = os.fork()
            if child == 0:
                signal.alarm(60)
                os._exit(0 if run() else 1)
            return os.waitpid(child, 0)[1]

        def is_well():
            return parts(font) == before and answers(subsetter) == wanted

        font = subsetter.pdf_font(made("made.ttf"), [(1, "A")])
        before = parts(font)
        print(forked(is_well), is_well(), end=" ")
        subsetter._loaded, declare, begun, ends = None, subsetter._declare, threading.Event(), threading.Event()

        def slow(library):
            begun.set()
            ends.wait(60)
            return declare(library)

        subsetter._declare = slow
        other = threading.Thread(target=subsetter._library)
        other.start()
        begun.wait()
        subsetter._declare = declare
        print(forked(lambda: answers(subsetter) == wanted), end=" ")
        ends.set()
        other.join()
        print(answers(subsetter) == wanted)
    """) == "0 True 0 True\n"


def test_what_another_module_declares_of_pythons_calls():
    """All modules share `ctypes.pythonapi`."""
    assert child("""
        import ctypes, subsetter
        ctypes.pythonapi.PyObject_GetBuffer.argtypes = ctypes.pythonapi.PyBuffer_Release.argtypes = [ctypes.c_int]
        try:
            subsetter.subset(bytes(4), [])
        except subsetter.UnknownKind:
            print("read")
    """) == "read\n"
