"""Files, streams, memory and time of the program: rights, links, attributes, closed streams, runs at the same time, and hostile input.

    SUBSET_FONT=FILE /usr/bin/python3 -m pytest -q tests/test_files.py

For Linux. Requests for memory fail by compare/drivers/refuse.c; calls of the system do so in `compare/run faults`.
"""
import contextlib
import errno
import json
import os
import re
import resource
import shutil
import stat
import struct
import subprocess
import time
from dataclasses import dataclass

import pytest
import support
from support import COMMAND, IS_CARGO, OLD, cannot, few_bytes, fonts, glyph_lines, is_whole, read, reason, remove, run

SIMPLE, WANTED, LINES = fonts()["simple"], fonts()["simple_2"], glyph_lines((2, 1))
SHORT = ["in", "out", "0", "2"]
# The bytes of a name of which the build by Cargo makes no second name (Rust's library requests memory for it).
LONG_NAME = 384
NOBODY = 65534


def mode_of(path):
    return stat.S_IMODE(os.stat(path).st_mode)


def names_in(room):
    return sorted(it.name for it in room.iterdir())


def put(path, data=OLD, mode=0o644):
    path.write_bytes(data)
    path.chmod(mode)
    return path


def megabytes(count):
    return lambda: resource.setrlimit(resource.RLIMIT_AS, (count << 20, count << 20))


def seconds(count):
    return lambda: resource.setrlimit(resource.RLIMIT_CPU, (count, count))


def ended(room, *words, status=0, **given):
    """Standard output and standard error of a run that ends with a status."""
    got = run([str(it) for it in words], room, **given)
    assert got[0] == status, got
    return got[1:]


def batch(room, requests, *words, status=0, **given):
    """The answers to requests."""
    (room / "requests").write_text("".join(json.dumps(it) + "\n" for it in requests))
    return [json.loads(it) for it in ended(room, "--batch", "requests", *words, status=status, **given)[0].splitlines()]


with_jobs = pytest.mark.parametrize("jobs", [[], ["--jobs", "2"]] if IS_CARGO else [[]], ids=str)


# ---- rights, links, devices

def test_rights_stay(room):
    out = put(room / "out", mode=0o640)
    assert run(SHORT, room) == (0, LINES, b"") and read(out) == WANTED and mode_of(out) == 0o640
    assert run(["in", "new", "0", "2"], room, umask=0o027)[0] == 0 and mode_of(room / "new") == 0o640
    assert names_in(room) == ["in", "new", "out"]
    (room / "folder").mkdir()
    assert run(["in", "folder/out", "0", "2"], room)[0] == 0 and read(room / "folder" / "out") == WANTED and names_in(room / "folder") == ["out"]


@pytest.mark.parametrize("out", ["out", "new", "in"])
def test_file_too_large(room, out):
    """A file may have 100 bytes: OUT is as it was, and nothing is beside it."""
    put(room / "out")
    before = {it: read(room / it) for it in names_in(room)}
    assert run(["in", out, "0", "2"], room, preexec_fn=few_bytes) == (3, b"", cannot("write", out, "EFBIG"))
    assert {it: read(room / it) for it in names_in(room)} == before


def test_pdf_too_large(room):
    """A PDF is written before OUT: where it can't be, both are as they were."""
    put(room / "small", fonts()["small"])
    put(room / "page")
    put(room / "out")
    words = ["small", "--text", "AB", "--pdf", "page", "-o", "out"]
    assert run(words, room, preexec_fn=few_bytes) == (3, b"", cannot("write", "page", "EFBIG"))
    assert read(room / "page") == read(room / "out") == OLD and names_in(room) == ["in", "out", "page", "small"]


def test_taken_names(room):
    """All 100 names beside OUT are taken: it is written in place. While one is free, a write that fails leaves it as it was."""
    for number in range(99):
        put(room / f"out.part{number}")
    for taken, given, wanted in ((99, {"preexec_fn": few_bytes}, OLD), (99, {}, WANTED), (100, {}, WANTED)):
        put(room / "out")
        if taken == 100:
            put(room / "out.part99")
        before = names_in(room)
        assert run(SHORT, room, **given)[0] == (0 if wanted == WANTED else 3) and read(room / "out") == wanted and names_in(room) == before
    assert {read(room / f"out.part{number}") for number in range(100)} == {OLD}


def test_long_name(room):
    """A name beside OUT would be too long: it is written in place."""
    for _ in range(2):
        assert run(["in", "n" * 255, "0", "2"], room)[0] == 0 and read(room / ("n" * 255)) == WANTED


def test_links(room):
    """Links and second names stay, and what they lead to is written; a pipe and a device are written."""
    put(room / "real", OLD * 1000)
    (room / "link").symlink_to("real")
    (room / "hanging").symlink_to("nowhere")
    for name, real in (("link", "real"), ("hanging", "nowhere")):
        assert run(["in", name, "0", "2"], room)[0] == 0 and (room / name).is_symlink() and read(room / real) == WANTED
    put(room / "one", OLD * 1000)
    os.link(room / "one", room / "other")
    assert run(["in", "one", "0", "2"], room)[0] == 0 and read(room / "other") == WANTED and os.path.samefile(room / "one", room / "other")
    os.mkfifo(room / "pipe")
    with subprocess.Popen(["timeout", "600", "cat", "pipe"], cwd=room, stdout=subprocess.PIPE) as reader:
        assert run(["in", "pipe", "0", "2"], room) == (0, LINES, b"") and reader.communicate()[0] == WANTED
    assert run(["in", "/dev/null", "0", "2"], room) == (0, LINES, b"")
    assert names_in(room) == ["hanging", "in", "link", "nowhere", "one", "other", "pipe", "real"]


@pytest.mark.parametrize("length", [40, *range(LONG_NAME - 8, LONG_NAME + 2), 1000])
def test_same_file(room, length):
    """OUT keeps its number and its rights, by a second name while it is written; the build by Cargo makes none of many bytes."""
    folder = room / "folder"
    folder.mkdir()
    # (further strokes change nothing)
    name = "folder" + "/" * (length - len("folderout")) + "out"
    out = put(folder / "out", mode=0o640)
    before = os.stat(out).st_ino
    assert run(["in", name, "0", "2"], room) == (0, LINES, b"") and read(out) == WANTED and mode_of(out) == 0o640
    assert (os.stat(out).st_ino == before) == (not IS_CARGO or length + len(".part1") < LONG_NAME) and names_in(folder) == ["out"]
    # What has a second name already is written where it is.
    os.link(put(out, OLD * 1000), room / "other")
    assert run(["in", name, "0", "2"], room)[0] == 0 and os.path.samefile(out, room / "other") and read(out) == WANTED


# An access list of Linux (version 2): the owner may read and write, so may the user 4243, the group has no rights, and 4243's are masked by rw.
ACCESS_LIST = struct.pack("<I", 2) + b"".join(struct.pack("<HHI", *it) for it in ((1, 6, 2**32 - 1), (2, 6, 4243), (4, 0, 2**32 - 1), (16, 6, 2**32 - 1), (32, 0, 2**32 - 1)))


def test_attributes(room):
    """OUT keeps its access list, its other attributes and its number; where the file can't be written again, OUT is whole all the same."""
    out = put(room / "out", OLD * 1000, 0o640)
    os.setxattr(out, "user.note", b"kept")
    os.setxattr(out, "system.posix_acl_access", ACCESS_LIST)

    def known():
        return {it: os.getxattr(out, it) for it in os.listxattr(out)}, os.stat(out).st_ino, mode_of(out)
    before = known()
    assert run(SHORT, room) == (0, LINES, b"") and read(out) == WANTED and known() == before
    assert run(SHORT, room, preexec_fn=few_bytes)[0] == 3 and read(out) == WANTED and known() == before
    assert names_in(room) == ["in", "out"]


class Other:
    """A room where the program runs as a user who isn't root."""

    def __init__(self, room):
        assert os.geteuid() == 0, "needs root, to run the program as another user"
        self.room = room
        shutil.copy(COMMAND[-1], room / "program")
        for it in (room, *room.parents):
            if it.stat().st_uid == os.geteuid():
                it.chmod(it.stat().st_mode | 0o755)
        room.chmod(0o777)

    def run(self, *words):
        got = subprocess.run(["./program", *words], cwd=self.room, capture_output=True, check=False, user=NOBODY, group=NOBODY, extra_groups=[])
        return got.returncode, got.stderr


@pytest.fixture
def other(room):
    return Other(room)


def test_forbidden(other, room):
    """Files that may not be read or written, and a folder in which no file can be made."""
    shut = put(room / "shut", mode=0o444)
    assert other.run("in", "shut", "0", "2") == (3, cannot("write", "shut", "EACCES")) and read(shut) == OLD
    put(room / "secret", SIMPLE, 0)
    assert other.run("secret", "out", "0", "2") == (3, cannot("read", "secret", "EACCES"))
    (room / "folder").mkdir()
    out = put(room / "folder" / "out", mode=0o666)
    (room / "folder").chmod(0o555)
    assert other.run("in", "folder/out", "0", "2")[0] == 0 and read(out) == WANTED and names_in(room) == ["folder", "in", "program", "secret", "shut"]


@pytest.mark.parametrize(("owner", "group"), [(0, 0), (0, NOBODY), (NOBODY, 4242)])
@pytest.mark.parametrize("front", ["", "." + "/" * LONG_NAME])
def test_owner_stays(other, room, owner, group, front):
    out = put(room / "out", mode=0o666)
    os.chown(out, owner, group)
    assert other.run("in", front + "out", "0", "2")[0] == 0 and read(out) == WANTED
    assert (out.stat().st_uid, out.stat().st_gid) == (owner, group) and names_in(room) == ["in", "out", "program"]


# ---- standard streams

def to(stream, words, room, **given):
    """How a run ends whose standard output is a stream, and its messages."""
    got = subprocess.run([*COMMAND, *words], cwd=room, check=False, timeout=600, **{"stdin": subprocess.DEVNULL, "stdout": stream, "stderr": subprocess.PIPE, **given})
    return got.returncode, got.stderr


@pytest.mark.parametrize(("words", "named"), [(SHORT, "standard output"), (["--help"], "standard output"), (["--version"], "standard output"), (["in", "-", "0", "2"], "-")], ids=str)
def test_output_fails(room, words, named):
    """A full disk, a pipe that nobody reads, and one that would have to wait, which isn't written again and again. OUT is whole."""
    with open("/dev/full", "wb") as full:
        assert to(full, words, room) == (3, cannot("write", named, "ENOSPC"))
    reading, writing = os.pipe()
    os.set_blocking(writing, False)
    with contextlib.suppress(BlockingIOError):
        while True:
            os.write(writing, bytes(1 << 16))
    assert to(writing, words, room) == (3, cannot("write", named, "EAGAIN"))
    os.close(reading)
    assert to(writing, words, room) == (3, cannot("write", named, "EPIPE"))
    os.close(writing)
    assert read(room / "out") == (WANTED if words == SHORT else None)


@pytest.mark.parametrize(("words", "named", "whole"), [(["in", "/dev/null", "0", ",".join(["2", "1"] * 50)], "standard output", glyph_lines(*((2, 1), (1, 2)) * 50)), (["in", "-", "0", "2"], "-", WANTED)])
def test_short_output(room, words, named, whole):
    """Standard output takes 100 bytes: the first write is short, and the next one fails."""
    with open(room / "short", "wb") as file:
        assert to(file, words, room, preexec_fn=few_bytes) == (3, cannot("write", named, "EFBIG"))
    assert read(room / "short") == whole[:100]


def test_messages_fail(room):
    """The lines go to standard error, which is full; OUT, which is standard output, is whole."""
    with open("/dev/full", "wb") as full:
        got = subprocess.run([*COMMAND, "in", "-", "0", "2"], cwd=room, check=False, stdout=subprocess.PIPE, stderr=full)
    assert (got.returncode, got.stdout) == (3, WANTED)


def test_output_is_out(room):
    """The lines go to standard error where standard output is OUT itself, and else to it."""
    for name, out, err in (("out", WANTED, LINES), ("other", LINES, b"")):
        with open(room / name, "wb") as file:
            assert to(file, SHORT, room) == (0, err)
        assert read(room / name) == out and read(room / "out") == WANTED


@pytest.mark.parametrize(("words", "status"), [(["-", "out", "0", "2"], 3), (["--gids-file", "-", "in", "out", "0"], 3), (["--batch", "-"], 2)], ids=str)
def test_input_waits(room, words, status):
    """Standard input has no bytes yet, and doesn't wait: it isn't read again and again."""
    reading, writing = os.pipe()
    os.set_blocking(reading, False)
    assert to(subprocess.DEVNULL, words, room, stdin=reading) == (status, cannot("read", "-", "EAGAIN"))
    os.close(reading)
    os.close(writing)


BAD_OUTPUT = cannot("write", "standard output", "EBADF")
# Words, the stream that is closed, the end (status, standard output, standard error; of the closed one nothing is read), and that by Cargo where it is another:
# there Rust's library opens /dev/null in its place.
CLOSED = [
    ("- out 0 2", 0, (3, b"", cannot("read", "-", "EISDIR")), (1, b"", b"unknown font kind\nthe file is empty\n")),
    ("--gids-file - six out 0", 0, (3, b"", cannot("read", "-", "EISDIR")), (0, b"", b"")),
    ("simple out 0 2", 0, (0, LINES, b""), None),
    ("simple out 0 2", 1, (3, b"", BAD_OUTPUT), (0, b"", b"")),
    ("simple - 0 2", 1, (3, b"", cannot("write", "-", "EBADF")), (0, b"", LINES)),
    ("--help", 1, (3, b"", BAD_OUTPUT), (0, b"", b"")),
    ("--version", 1, (3, b"", BAD_OUTPUT), (0, b"", b"")),
    ("--axes variable 0", 1, (3, b"", BAD_OUTPUT), (0, b"", b"")),
    ("--at wdth=1 simple out 0 2", 1, (3, b"", BAD_OUTPUT), (0, b"", b"no axis wdth in the font\naxes: none\n")),
    ("--quiet simple out 0 2", 1, (0, b"", b""), None),
    ("simple out 0 9", 1, (1, b"", b"malformed font\nglyph 9: loca has no entries for it\n"), None),
    ("simple - 0 2", 2, (3, WANTED, b""), (0, WANTED, b"")),
    ("simple out 0 2", 2, (0, LINES, b""), None),
    ("simple out 0 x", 2, (2, b"", b""), None),
]


@pytest.mark.parametrize(("words", "number", "wanted", "by_cargo"), CLOSED, ids=lambda it: it if isinstance(it, str) else str(it) if isinstance(it, int) else "")
def test_closed(fonts_room, words, number, wanted, by_cargo):
    wanted = list(by_cargo if IS_CARGO and by_cargo else wanted)
    got = list(run(words.split(" "), fonts_room, preexec_fn=lambda: os.close(number), stdin=None if number == 0 else subprocess.DEVNULL))
    if number:
        got[number] = wanted[number] = b""
    assert got == wanted
    is_made = " out " in words and (wanted[0] == 0 or wanted[2] == BAD_OUTPUT)
    new = read(fonts_room / "out")
    assert is_whole(new) if is_made else new is None


def test_closed_output_is_no_file(room):
    """No file gets the number of standard output that is closed at the start: OUT has the font alone, without a line."""
    status, _, err = run(["-", "out", "0", "2"], room, preexec_fn=lambda: os.close(1), input=SIMPLE)
    assert (status, err) == ((0, b"") if IS_CARGO else (3, BAD_OUTPUT)) and read(room / "out") == WANTED


def test_held_descriptors(room):
    """While it runs it holds three descriptors of a folder, which would take the numbers of closed streams."""
    with subprocess.Popen([*COMMAND, "-", "out", "0", "2"], cwd=room, stdin=subprocess.PIPE, stdout=subprocess.PIPE, stderr=subprocess.PIPE) as ran:
        held, end = [], time.monotonic() + 60
        # (it waits for standard input)
        while held.count("/") < 3 and time.monotonic() < end:
            time.sleep(0.01)
            held = [os.readlink(it.path) for it in os.scandir(f"/proc/{ran.pid}/fd") if os.path.lexists(it.path)]
        assert ran.communicate(SIMPLE) == (LINES, b"") and (held.count("/"), ran.returncode) == (3, 0)


# ---- memory

BOTH = fonts()["both"]
# What refused memory may end with: before OUT is made, and without a line.
REFUSED = ((1, b"", b"out of memory\n"), *((3, b"", f"cannot read {it}\nout of memory\n".encode()) for it in ("in", "list", "-")))
# What Rust's library requests by itself, in bytes: before main the name of the main thread and what its stack is, and the buffer of standard output.
# Where that alone is refused the process ends. It requests the arguments, too: their list, and each that isn't empty.
BY_STD = (4, 544, 1024)


@dataclass
class Ended:
    """How a run under refuse.c ended: status and streams, what is at OUT, the names in its folder, and what was refused of how many requests."""
    answer: tuple
    out: bytes
    names: list
    refused: int
    requests: int

    def is_whole(self, base):
        return (self.answer, self.out, self.names) == (base.answer, base.out, base.names)

    def is_refused(self, base):
        return self.answer in REFUSED and self.out == OLD and self.names == base.names

    def by_std(self, front=b""):
        """How many bytes Rust's library was refused where it ended the process; a message may be printed before."""
        said = re.match(rb"memory allocation of (\d+) bytes failed\n", self.answer[2].removeprefix(front))
        return int(said[1]) if IS_CARGO and said and self.answer[:2] == (-6, b"") else None


@pytest.fixture
def refusing(room, refuser, tmp_path_factory):
    """A function that runs the program over an OUT that is there, with wishes of refuse.c."""
    counts = tmp_path_factory.mktemp("counts") / "counts"
    put(room / "in", BOTH)
    put(room / "list", b"1-2 4")

    def start(words, stdin=b"", out="out", **wishes):
        put(room / out)
        remove(counts)
        answer = run(words, room, env={"LD_PRELOAD": refuser, "TOLD": str(counts), **{name: str(it) for name, it in wishes.items()}}, input=stdin)
        requests, refused = map(int, (read(counts) or b"0 1").split()[:2])
        return Ended(answer, read(room / out), names_in((room / out).parent), refused, requests)
    return start


DEEP = "/".join(["folder" * 20] * 4)
RUNS = [SHORT, ["--json", "--pdf", "page", "--text", "A", "in", "out", "0"], ["--json", "--widths", "--gids-file", "list", "in", "out", "0"], ["--text", "A", "in", "-", "0"]]


@pytest.mark.parametrize("words", RUNS, ids=" ".join)
def test_refused_memory(refusing, words):
    """Each request is refused in turn: never does a run end with 0 and another output."""
    base, by_std, number = refusing(words, REFUSE=0), [], 0
    assert base.answer[0] == 0 and base.out != OLD or "-" in words
    for number in range(1, base.requests + 1):
        got = refusing(words, REFUSE=number)
        if size := got.by_std():
            by_std.append(size)
            assert got.out == OLD and got.names == base.names, got
        else:
            assert got.is_whole(base) or got.is_refused(base), (number, got)
    assert number > 5 and sorted(by_std) == (sorted([*BY_STD, 24 * (len(words) + 1), *(len(it) for it in (COMMAND[-1], *words))]) if IS_CARGO else [])


def test_refused_names(refusing, room):
    """The same for an OUT of a long name: there the build by Cargo may end while a file is beside OUT."""
    (room / DEEP).mkdir(parents=True)
    out, left = f"{DEEP}/out", 0
    words = ["in", out, "0", "2"]
    base = refusing(words, out=out, REFUSE=0)
    for number in range(1, base.requests + 1):
        got = refusing(words, out=out, REFUSE=number)
        size = got.by_std()
        if size and size > LONG_NAME and got.names == ["out", "out.part0"]:
            left += 1
            remove(room / DEEP / "out.part0")
        unwritten = got.answer == (3, b"", f"cannot write {out}\nout of memory\n".encode()) and got.names == base.names
        assert got.out == OLD and (size or unwritten or got.is_refused(base)) or got.is_whole(base), (number, got)
    assert (left > 0) == IS_CARGO


@pytest.mark.parametrize(("words", "said"), [
    (["none", "out", "0", "2"], ("read", "none")), (["--gids-file", "none", "in", "out", "0"], ("read", "none")), (["--axes", "none"], ("read", "none")),
    (["in", "none/out", "0", "2"], ("write", "none/out")), (["in", "--gids", "2", "--pdf", "none/page", "-o", "out"], ("write", "none/page"))], ids=str)
def test_refused_reason(refusing, words, said):
    """The system refuses a file, and the last requests for memory are refused in turn, those for the reason among them: the run ends with a status and its
    first line, without the reason where there is no memory for that."""
    whole, by_std, ends = cannot(*said, "ENOENT"), [], set()
    first = whole[:whole.index(b"\n") + 1]
    base = refusing(words, REFUSE=0)
    assert base.answer == (3, b"", whole) and base.out == OLD
    for number in range(max(base.requests - 8, 0) + 1, base.requests + 1):
        got = refusing(words, REFUSE=number)
        by_std.append(got.by_std(first))
        ends.add(got.answer)
        assert by_std[-1] or got.answer in (*REFUSED, *((3, b"", first + it) for it in (b"", b"out of memory\n", whole[len(first):]))), (number, got)
        assert got.out == OLD and got.names == base.names, (number, got)
    # (the last one is of Rust's own, which it isn't asked for twice)
    assert not IS_CARGO or by_std[-1] == len(os.strerror(errno.ENOENT)) and (3, b"", first) in ends


@pytest.mark.parametrize(("words", "stdin", "out"), [*((it, b"", "out") for it in RUNS), (["-", "out", "0", "2"], BOTH, "out"), (["in", f"{DEEP}/out", "0", "2"], b"", f"{DEEP}/out")], ids=str)
def test_little_room(refusing, room, words, stdin, out):
    """With any bound on memory a run is whole, or ends before OUT is touched; and no file is left beside OUT."""
    (room / out).parent.mkdir(parents=True, exist_ok=True)
    base = refusing(words, stdin, out)
    for size in range(0, 1 << 20, 360):
        got = refusing(words, stdin, out, ROOM=size)
        assert got.is_whole(base) or got.is_refused(base), (size, got)
        if got.refused == 0:
            break
    assert size > 8000 and got.answer[0] == 0


def test_requests(refusing, room):
    """Room for all of IN is requested at once: a large file takes as many requests as a small one, and from standard input it takes some more."""
    large = BOTH + bytes(1 << 20)
    small = refusing(SHORT)
    put(room / "in", large)
    found = [refusing(SHORT), refusing(["-", *SHORT[1:]], stdin=large)]
    assert 5 < small.requests == found[0].requests < found[1].requests and all(it.is_whole(small) for it in found)


@pytest.mark.parametrize("folder", ["short", DEEP])
def test_kept_room(refusing, room, folder):
    """Where no memory is left once a file beside OUT is made, it still gets its name, and is removed where it can't be written."""
    (room / folder).mkdir(parents=True)
    words, out = ["--quiet", "in", f"{folder}/out", "0", "2"], f"{folder}/out"
    base, got = refusing(words, out=out), refusing(words, out=out, SPARE=0)
    assert base.answer == (0, b"", b"") and base.out != OLD and (got.is_whole(base) or not IS_CARGO)
    got, said = refusing(words, out=out, SPARE=0, FAIL="write:1"), cannot("write", out, "EIO")
    assert got.out == OLD and got.names == base.names and (got.answer in ((3, b"", said), (3, b"", said[:said.index(b"\n") + 1])) or not IS_CARGO)


def test_messages_and_more_fail(refusing):
    """Standard error fails once, too: what can be written of a message is."""
    got = refusing(["none", "out", "0", "2"], FAIL="write:1" if IS_CARGO else "write2:1")
    assert got.answer == (3, b"", f"{reason('ENOENT')}\n".encode()) and got.out == OLD


def test_inodes(refusing, room, refuser):
    """Where all files have one inode number, OUT and standard output are one file on one device alone."""
    assert os.stat("/dev/null").st_dev != os.stat(room).st_dev
    for output, err in (("out", LINES), ("/dev/null", b"")):
        put(room / "out")
        with open(room / output, "wb") as file:
            assert to(file, SHORT, room, env={"LD_PRELOAD": refuser, "INODE": "7"}) == (0, err)


def test_little_memory(room):
    """Room is taken for the file alone, and not many times it."""
    put(room / "in", SIMPLE + bytes(1 << 20))
    assert run(SHORT, room, preexec_fn=megabytes(64))[:2] == (0, LINES)
    put(room / "in", SIMPLE + bytes(80 << 20))
    assert run(["in", "other", "0", "2"], room, preexec_fn=megabytes(64)) == (3, b"", b"cannot read in\nout of memory\n") and not (room / "other").exists()


# ---- runs at the same time

@pytest.fixture
def answers(room):
    """OUT for glyph 1, and for glyphs 1 and 2."""
    return [ended(room, "--quiet", "in", "-", "0", gids)[0] for gids in ("1", "1,2")]


def two_runs(room):
    for it in [subprocess.Popen([*COMMAND, "--quiet", "in", "out", "0", gids], cwd=room) for gids in ("1", "1,2")]:
        assert it.wait() == 0


def two_lines(room):
    lines = [{"in": "in", "out": out, "gids": gids, "quiet": True} for out, gids in (("out", "1"), ("./out", "1,2"))]
    assert [it["status"] for it in batch(room, lines, "--jobs", "2")] == [0, 0]


@pytest.mark.parametrize("two", [two_runs, two_lines] if IS_CARGO else [two_runs])
def test_two_that_write_one_out(room, answers, two):
    """OUT is the answer of one."""
    put(room / "out", answers[0])
    for _ in range(300):
        two(room)
        assert read(room / "out") in answers and not list(room.glob("*.part*"))


def test_part_of_another_run(room, answers):
    """Beside the file of another run OUT is renamed alone."""
    put(room / "out")
    put(room / "out.part0", b"theirs")
    before = os.stat(room / "out").st_ino
    ended(room, "--quiet", "in", "out", "0", "1")
    assert read(room / "out") == answers[0] and os.stat(room / "out").st_ino != before
    assert read(room / "out.part0") == b"theirs" and names_in(room) == ["in", "out", "out.part0"]


@pytest.mark.parametrize("held", ["out.part0", "out.part1"])
def test_second_name_and_another_run(room, held):
    """A file with a second name that another run may write isn't touched."""
    put(room / "out")
    os.link(room / "out", room / "second")
    put(room / held, b"theirs")
    assert ended(room, "--quiet", "in", "out", "0", "1", status=3)[1] == b"cannot write out\nresource busy\n"
    assert read(room / "second") == OLD and names_in(room) == ["in", "out", held, "second"]


def test_second_name_of_another_run(room, answers):
    """The second name that a run at work gave OUT is none of OUT's own."""
    put(room / "out")
    put(room / "out.part0", b"theirs")
    os.link(room / "out", room / "out.part1")
    ended(room, "--quiet", "in", "out", "0", "1")
    assert read(room / "out") == answers[0] and read(room / "out.part1") == OLD


# ---- hostile batches and lists

@with_jobs
@pytest.mark.parametrize("member", ["out", "pdf"])
@pytest.mark.parametrize("name", ["/dev/stdout", "answers", "./link"])
def test_no_request_writes_among_the_answers(room, jobs, member, name):
    (room / "link").symlink_to("answers")
    (room / "requests").write_text(json.dumps({"in": "in", member: name, "gids": 1}))
    with open(room / "answers", "wb") as stream:
        assert to(stream, ["--batch", "requests", *jobs], room)[0] == 1
    assert json.loads(read(room / "answers")) == {"line": 1, "status": 2, "error": f"the answers go to {name}"}


@with_jobs
@pytest.mark.parametrize(("key", "other"), [("out", "in"), ("in", "out")])
def test_a_batch_takes_time_in_proportion(room, jobs, key, other):
    lines = [*({other: "none", key: str(it), "gids": 1} for it in range(20000)), {"in": "in", "out": "new", "gids": 1, "quiet": True}]
    got = batch(room, lines, *jobs, status=1, preexec_fn=seconds(6))
    assert len(got) == 20001 and got[-1] == {"line": 20001, "status": 0}
    assert (got[0]["error"], got[9]["error"]) == (("cannot read none",) * 2 if other == "in" else ("cannot read 0", "a line before names none, too"))


@with_jobs
def test_the_first_of_lines_with_one_out_counts(room, jobs):
    lines = [{"in": "in", "out": "a"}, {"in": "in", "out": "a", "gids": 1}, {"in": "in", "pdf": "a", "gids": 1},
             {"in": "in", "out": "b", "pdf": "a", "gids": 1}, {"in": "in", "out": "b", "gids": 1}, {"in": "in", "out": "c", "gids": 1}]
    got = batch(room, lines, *jobs, status=1)
    assert [it["status"] for it in got] == [2, 0, 2, 2, 2, 0]
    assert [it.get("error") for it in got[2:5]] == ["a line before names a, too", "a line before names a, too", "a line before names b, too"]


@pytest.mark.parametrize(("option", "many"), [("--gids", "0-65534," * 1000), ("--unicodes", "0-10FFFF," * 100)], ids=["gids", "unicodes"])
def test_a_list_of_too_many_numbers_is_refused_while_it_is_read(room, option, many):
    said = "usage: subset_font IN OUT INDEX GID[,GID..]\n%s: more than 2000000 numbers\nexpected: at most 2000000 numbers in a list\n"
    (room / "list").write_text(many)
    for word, value in ((option, many), (f"{option}-file", "list")):
        assert ended(room, word, value, "in", "out", "0", status=2, preexec_fn=megabytes(100))[1].decode() == said % word
    [answer] = batch(room, [{"in": "in", "out": "out", option[2:]: many}], status=1, preexec_fn=megabytes(100))
    assert answer == {"line": 1, "status": 2, "error": f"{option}: more than 2000000 numbers"} and not (room / "out").exists()


@with_jobs
def test_the_lists_of_a_batch_have_two_million_numbers_in_sum(room, jobs):
    put(room / "in", fonts()["small"])
    many = [{"in": "in", "out": str(it), "gids": "0-9999," * 100, "quiet": True} for it in range(500)]
    lines = [{"in": "in", "out": "first", "unicodes": "41-60,D800-DFFF", "quiet": True}, *many, {"in": "in", "out": "last", "gids": "1", "quiet": True}]
    got = batch(room, lines, *jobs, status=1, preexec_fn=megabytes(900))
    # (the first line takes 32 of them, the second a million, and the last one)
    assert [it.get("error") for it in got] == [None, "malformed font", *["the lists of all lines have more than 2000000 numbers"] * 499, None]


def test_two_million_numbers_are_few_enough(room):
    most = "1," * 1_950_000 + "0-1," * 25_000
    for more, status in (("", 0), ("1", 2)):
        (room / "list").write_text(most + more)
        assert ended(room, "--gids-file", "list", "in", "out", "0", status=status)[0].count(b"\n") == (0 if more else 2_000_000)


# ---- hostile names and fonts

NAME, PLAIN = "a\x1b[31m\n\x7f\x85\u061c\u200e\u202e\u2028\u2069b", "a\ufffd[31m" + "\ufffd" * 8 + "b"


def test_names_of_files_are_cleaned_in_messages(room):
    for words, said in (((NAME, "out", "0", "1"), "cannot read "), (("in", f"no/{NAME}", "0", "1"), "cannot write no/"), (("--gids-file", NAME, "in", "out", "0"), "cannot read ")):
        assert ended(room, "--quiet", *words, status=3)[1].decode().splitlines()[0] == said + PLAIN


def test_names_are_cleaned_in_the_answers_of_a_batch(room):
    lines = [{"in": NAME, "out": "a", "gids": 1}, {"in": "in", "out": NAME, "gids": 1, "quiet": True}, {"in": "in", "out": NAME, "gids": 1}, {"in": "in", "out": "b", "gids": NAME}]
    got = [it.get("error") for it in batch(room, lines, status=1)]
    assert got == [f"cannot read {PLAIN}", None, f"a line before names {PLAIN}, too", f'--gids: "{PLAIN}" is not a glyph number']
    [answer] = batch(room, [{"in": "in", NAME: 1}], status=1)
    assert answer["error"].endswith(f"bytes: {PLAIN}")


def test_in_that_has_no_end_is_refused(room):
    assert ended(room, "/dev/zero", "out", "0", "1", status=3)[1] == b"cannot read /dev/zero\nfile too large\n"
    with open(room / "long", "wb") as file:
        file.truncate((1 << 30) + 1)
    assert ended(room, "long", "out", "0", "1", status=3, preexec_fn=megabytes(100))[1] == b"cannot read long\nfile too large\n"


def calling(count, levels):
    """A font of glyphs that each run for 100 * 10^levels tokens, by subroutines."""
    calls = [f"charstring {' '.join([f'{level - 107} callgsubr'] * 10)} return" for level in range(levels)]
    return support.font(f"""
    sfnt CFF
    table CFF
        CFFHeader 1 0 4 1
        at names INDEX
            text "A"
        at top INDEX
            DICT
                CharStrings @charstrings
        at strings INDEX
        at globals INDEX
            {(chr(10) + " " * 12).join([f"charstring {'1 hmoveto ' * 50}return", *calls])}
        at charstrings INDEX
            each 1..{count}
                charstring {levels - 107} callgsubr endchar
    maxp0.5 version=0.5 numGlyphs={count}
""")


def test_info_takes_no_longer_than_its_limits(room):
    put(room / "in", calling(20000, 3))
    assert b"\nsubset refuses: not all tried\n" in ended(room, "--info", "in", preexec_fn=seconds(3))[0]
    assert json.loads(ended(room, "--info", "--json", "in")[0])["refusal"] == "not all tried"
    put(room / "in", calling(20, 3))
    assert b"\nsubset accepts every glyph\n" in ended(room, "--info", "in")[0]


def test_the_reason_for_a_refusal_is_looked_for_within_twice_the_limits(room):
    said = "processing CFF table failed\n%s\n"
    put(room / "in", calling(20000, 3))
    got = ended(room, "--limits", "100,64", "--gids", "*", "in", "out", "0", status=1, preexec_fn=seconds(3))
    assert got[1].decode() == said % "twice the given --limits is too little, too, or the font is wrong"
    put(room / "in", calling(20, 0))
    assert ended(room, "--limits", "80,64", "in", "out", "0", "1", status=1)[1].decode() == said % "a glyph needs more than the 80,64 of --limits"


def twenty(more):
    """A font of 20 empty glyphs with further tables."""
    return support.font(f"""
    sfnt TrueType
    table glyf
    head unitsPerEm=1000
    hhea numberOfHMetrics=1
    table hmtx
        u16 500 0*20
    table loca
        u16 0*21
    maxp1.0 version=1.0 numGlyphs=20
{more}""")


def instances(numbers, names):
    """A font with instances at 500, whose names have these numbers, and records of names, each a number and a text."""
    heads, texts = b"", b""
    for number, text in names:
        heads += struct.pack(">6H", 0, 3, 0, number, 2 * len(text), len(texts))
        texts += text.encode("utf-16-be")
    return twenty(f"""
    fvar majorVersion=1 axesArrayOffset=16 reserved=2 axisCount=1 axisSize=20 instanceCount={len(numbers)} instanceSize=8
        variationAxis wght 100 400 900 0 256
        hex {b"".join(struct.pack(">HHi", it, 0, 500 << 16) for it in numbers).hex()}
    name count={len(names)} storageOffset={6 + len(heads)}
        hex {(heads + texts).hex()}
""")


def test_a_message_lists_twenty_instances(room):
    styles = [(300 + it, f"Style {it}") for it in range(25)]
    listed = "named instances: " + ", ".join(name for _, name in styles[:20])
    for count, more in ((25, " and 5 more"), (20, "")):
        put(room / "in", instances(range(300, 300 + count), styles[:count]))
        assert ended(room, "--at", "None", "in", "out", "0", "1", status=1)[1].decode() == f"no such instance in font\n{listed}{more}\n"
    ended(room, "--at", "style 19", "in", "out", "0", "1")


def test_names_are_found_by_an_index_and_compared_without_a_text(room):
    put(room / "in", instances([300] * 20000, [(299, "")] * 4999 + [(300, "Bold")]))
    assert ended(room, "--axes", "in", preexec_fn=seconds(2))[0].splitlines()[2:] == [b"instance wght=500 Bold"] * 20000
    put(room / "in", instances([300] * 20000, [(300, "x" * 30000)]))
    for name in ("Bold", "x" * 30001):
        ended(room, "--at", name, "in", "out", "0", "1", status=1, preexec_fn=seconds(2))
    put(room / "in", instances([300] * 2, [(300, "Stra\u00dfe \u00c9")]))
    for name, status in (("Stra\u00dfe \u00c9", 0), ("sTRA\u00dfE \u00c9", 0), ("Stra\u00dfe \u00e9", 1), ("Stra\u00dfe ", 1), ("Stra\u00dfe \u00c9X", 1), ("Strasse \u00c9", 1)):
        ended(room, "--at", name, "in", "out", "0", "1", status=status)


@with_jobs
def test_long_names_of_glyphs_are_written_as_they_are_found_but_64_mib_of_an_answer(room, jobs):
    put(room / "in", twenty(f"""
    post version=2.0
        u16 20 258*20
        pascal "{"N" * 255}"
"""))
    many, few = "1-19," * 14000, "1-19," * 12000
    said = json.loads(ended(room, "--json", "--gids", many, "in", "out", "0", preexec_fn=megabytes(60))[0])
    assert len(said["glyphs"]) == 19 * 14000 and said["glyphs"][-1]["name"] == "N" * 255
    got = batch(room, [{"in": "in", "out": "a", "gids": many}, {"in": "in", "out": "b", "gids": few}, {"in": "in", "out": "c", "gids": many, "quiet": True}], *jobs, status=1)
    assert got[0] == {"line": 1, "status": 1, "error": "the answer has more than 64 MiB"} and got[2] == {"line": 3, "status": 0}
    assert len(got[1]["glyphs"]) == 19 * 12000 and not (room / "a").exists() and (room / "b").exists()
