"""Many requests in one run (`--batch`), and threads (`--jobs`), which only the build by Cargo has.

    SUBSET_FONT=FILE /usr/bin/python3 -m pytest -q tests/test_batch.py
"""
import contextlib
import json
import os
import pty
import re
import select
import subprocess
import time

import pytest
from support import COMMAND, IS_CARGO, SYSTEM, USAGE, fonts, library, read, remove, run

# Fonts of each kind: each by each of these requests, with names of options and their values; True means none.
SOURCES = ("six", "small", "variable_named", "instances", "faces", "cff", "post_2", "fs_2", "cut_loca", "empty")
REQUESTS = (
    {"gids": "1,2"},
    {"gids": "*", "widths": True},
    {"gids": "1", "no-hinting": True, "no-names": True, "no-glyph-names": True, "verbose": True},
    {"text": "A\u00e9", "verbose": True},
    {"unicodes": "U+0041-0043", "limits": "100,4"},
    {"gids": "1", "at": "wght=650"},
    {"gids": "1", "at": "Bold"},
    {"gids": "60", "face-index": "1"},
    {"text": "A", "pdf": None, "codes": "text", "rights": "held", "vertical": True},
)
GOOD = [{"in": name, "out": f"{name}-{k}", "gids": [1], "quiet": k == 1} for k in range(10) for name in ("six", "small")][:11]
WRONG = [{"in": "six", "out": "one", "gids": [60]}, {"in": "none", "out": "two", "gids": [1]}, {"in": "six", "out": "none/three", "gids": [1]}]
# (lines are read 16 at a time: wrong ones at the ends of such pieces, and OUT of one in another)
TWICE = {17: 2, 40: 2, 43: 41, 48: 25}
MANY = [{"in": 1} if k in (0, 15, 16, 49) else {"in": ("six", "small")[k % 2], "out": f"of-{TWICE.get(k, k)}", "gids": [1]} for k in range(50)]
# OUT and PDF of requests: what a line before names is an OUT or a PDF there, also of a line that fails.
PAIRS = [("a", None), ("b", "c"), ("c", None), ("d", "a"), ("d", None), ("e", "c"), ("f", "f2"), ("none/g", "h"), ("h", None), ("none/g", "i"), ("c", "a"), ("i", "j"), ("k", "b")]
# The seconds after which what is waited for is late. What is right comes at once.
LATE = 240

by_cargo = pytest.mark.skipif(not IS_CARGO, reason="the build by Cargo alone has --jobs")


def lines_of(requests):
    return "".join(json.dumps(it) + "\n" for it in requests).encode()


def batch(room, requests, *words, **given):
    """How a batch of these requests ends, and the files that it made, which are removed."""
    (room / "requests").write_bytes(requests if isinstance(requests, bytes) else lines_of(requests))
    got = run(["--batch", "requests", *words], room, **given)
    return got, made(room, [] if isinstance(requests, bytes) else requests)


def made(room, requests):
    names = [it[key] for it in requests for key in ("out", "pdf") if key in it]
    found = [read(room / it) for it in names]
    remove(*(room / it for it in names))
    return found


def numbered():
    """The requests with IN, OUT and a PDF of their own: each font's are apart from one another."""
    return [{"in": name, "out": f"{name}-{number}", **{key: f"{name}-{number}.pdf" if value is None else value for key, value in request.items()}}
            for number, request in enumerate(REQUESTS) for name in SOURCES]


def single(room, members):
    """How a single run ends that does a request, as JSON, and the files that it made."""
    words = ["--json", members["in"], "-o", members["out"]]
    for name, value in members.items():
        if name not in ("in", "out"):
            words += [f"--{name}"] if value is True else [f"--{name}", value]
    return run(words, room), made(room, [members])


def test_as_single_runs(fonts_room):
    """Each request is done as a single run does it, and answered with the members of `--json`; so it is with each number of threads."""
    requests = numbered()
    base, files = batch(fonts_room, requests)
    answers, done = base[1].splitlines(), 0
    assert base[0] == 1 and base[2] == b"" and len(answers) == len(requests)
    for number, (members, line) in enumerate(zip(requests, answers), 1):
        (status, out, err), own = single(fonts_room, members)
        if status == 0:
            assert line + b"\n" == b'{"line":%d,"status":0,' % number + out[1:], members
        else:
            said = json.loads(line)
            assert (said["line"], said["status"]) == (number, status) and (status == 2 or said["error"] == err.decode("utf-8", "replace").splitlines()[0]), members
        assert own == [files.pop(0) for _ in own], members
        done += status == 0
    assert done * 4 > len(requests)
    if not IS_CARGO:
        assert batch(fonts_room, requests, "--jobs", "2")[0][:2] == (2, b"")
        return
    files = batch(fonts_room, requests)[1]
    for jobs in ("1", "2", "3", "64"):
        assert batch(fonts_room, requests, "--jobs", jobs) == (base, files)


def test_soon(fonts_room):
    """An answer is written as soon as those in front of it are, before the next source is read."""
    os.mkfifo(fonts_room / "pipe")
    (fonts_room / "requests").write_bytes(lines_of({"in": it, "out": f"{it}-1", "gids": [1], "quiet": True} for it in ("six", "pipe")))
    with subprocess.Popen([*COMMAND, "--batch", "requests"], cwd=fonts_room, stdout=subprocess.PIPE) as ran:
        is_there = bool(select.select([ran.stdout], [], [], LATE)[0])
        (fonts_room / "pipe").write_bytes(fonts()["six"])
        assert ran.communicate(timeout=LATE)[0] == b'{"line":1,"status":0}\n{"line":2,"status":0}\n' and is_there and ran.returncode == 0
    assert read(fonts_room / "six-1") == read(fonts_room / "pipe-1")


@pytest.mark.parametrize("more", [[], pytest.param(["--jobs", "2"], marks=by_cargo)], ids=str)
def test_progress(fonts_room, more):
    """On a terminal standard error shows how many requests are answered. (Of threads several answers can come at once.)"""
    (fonts_room / "requests").write_bytes(lines_of({"in": "six", "out": f"out-{k}", "gids": [1]} for k in range(3)))
    own, terminal = pty.openpty()
    with subprocess.Popen([*COMMAND, "--batch", "requests", *more], cwd=fonts_room, stdout=subprocess.PIPE, stderr=terminal) as ran:
        assert ran.communicate(timeout=LATE)[0].count(b"\n") == 3 and ran.returncode == 0
    os.close(terminal)
    said = b""
    with contextlib.suppress(OSError):
        while True:
            said += os.read(own, 1024)
    os.close(own)
    shown = said.replace(b"\r\n", b"\n").split(b"\r")
    assert shown[0] == b"" and shown[-1] == b"3 of 3\n" and (more or b"1 of 3" in shown) and set(shown[1:-1]) <= {b"%d of 3" % k for k in range(4)}


def opened(room, requests, top, *words):
    """The files that a batch opens, by strace."""
    log = top / "log"
    batch(room, requests, *words, command=["strace", "-f", "-qq", "-e", "trace=openat,open", "-o", str(log), *COMMAND])
    return re.findall(r'open(?:at)?\([^"\n]*"([^"]*)"', log.read_text(errors="replace"))


def test_opened_once(fonts_room, tmp_path_factory):
    """Each source is opened once, whatever the order of the requests."""
    top = tmp_path_factory.mktemp("log")
    by_turns = [{"in": name, "out": f"{name}-{k}", "gids": [k % 2 * 59 + 1]} for k in range(10) for name in ("six", "small")]
    for words in ([], ["--jobs", "3"]) if IS_CARGO else ([],):
        found = opened(fonts_room, by_turns, top, *words)
        assert (found.count("six"), found.count("small"), found.count("requests")) == (1, 1, 1)


# The answer to a request where memory is refused, beside its line.
NO_MEMORY = ({"status": 1, "error": "out of memory"}, *({"status": 3, "error": f"cannot {it}"} for it in ("read six", "read small", "write one", "write two", "write three")))


def ended_by_std(got):
    """Whether Rust's library was refused memory, and ended the process."""
    return IS_CARGO and got[0] == -6 and re.match(rb"memory allocation of \d+ bytes failed\n", got[2])


def refused(room, refuser, top, number, requests, *words):
    """How a batch ends in which a request for memory is refused, its files, and whether one was."""
    remove(top / "counts")
    got, files = batch(room, requests, *words, env={"LD_PRELOAD": refuser, "TOLD": str(top / "counts"), "REFUSE": str(number)})
    return got, files, int((read(top / "counts") or b"0 1").split()[1])


def test_refused_memory(fonts_room, refuser, tmp_path_factory):
    """Each request for memory is refused in turn: a request of the batch fails alone, or FILE can't be used."""
    top, alone, number = tmp_path_factory.mktemp("counts"), 0, 0
    requests = [{"in": "six", "out": "one", "gids": [2, 1]}, {"in": "small", "out": "two", "text": "A"}, {"in": "six", "out": "three", "gids": [1]}]
    (_, base, _), files, is_refused = refused(fonts_room, refuser, top, 0, requests)
    lines = base.splitlines()
    assert len(lines) == 3 and all(files) and not is_refused
    while True:
        number += 1
        got, own, is_refused = refused(fonts_room, refuser, top, number, requests)
        if not is_refused:
            break
        said = got[1].splitlines()
        for k, (line, file) in enumerate(zip(said, own)):
            answer = json.loads(line)
            assert (line, file) == (lines[k], files[k]) or file is None and answer.pop("line") == k + 1 and answer in NO_MEMORY, (number, got)
        unused = not said and got[::2] in ((2, b"cannot read requests\nout of memory\n"), (1, b"out of memory\n")) and not any(own)
        assert (len(said) == 3 or unused or ended_by_std(got)) and not list(fonts_room.glob("*.part*")), (number, got)
        alone += len(said) == 3 and sum(line == lines[k] for k, line in enumerate(said)) == 2
    assert number > 20 and alone > 5


# ---- threads

@by_cargo
def test_jobs_words(fonts_room):
    """N is a number from 1 to 64, and a wrong one is reported before FILE is opened; other words are no jobs."""
    wrong = {"0": "0", "65": "65", "064x": "064x", "256": "256", "257": "257", "65537": "65537", "x" * 40: "x" * 40, "x" * 41: "x" * 40 + ".."}
    if not SYSTEM:
        # (what becomes of such a word elsewhere is the emulator's)
        wrong |= {"-1": "-1", "+1": "+1", "": "", "1.0": "1.0", " 1": " 1", "1\t2": "1\ufffd2", "\u0661": "\u0661"}
    for number, shown in wrong.items():
        for words in (["--batch", "none", "--jobs", number], ["--jobs", number, "--batch", "none"], [f"--jobs={number}", "--batch=none"]):
            assert run(words, fonts_room) == (2, b"", f"{USAGE}\n--jobs: \"{shown}\" is not a number of threads\nexpected: a number from 1 to 64\n".encode()), words
    (fonts_room / "requests").write_bytes(lines_of(GOOD[:1]))
    for line in ("--batch requests --json 2", "--batch requests 2 --jobs", "--batches requests --jobs 2", "--jobs 2 --json requests", "--job 2 --batch requests", "--jobs 2 --batch",
                 "--batch requests --jobs", "--batch requests --jobs 2 --quiet", "--jobs 2 --batch requests --quiet", "--batch --jobs 2 requests", "--jobs --batch 2 requests", "--jobs=2", "--batch=requests --jobs=2 more",
                 "--jobs 2 simple out 0 2"):
        status, out, err = run(line.split(" "), fonts_room)
        assert (status, out) == (2, b"") and err.startswith(USAGE.encode() + b"\n") and err.count(b"\n") == 3 and b"from 1 to 64" not in err, line
    assert err == f"{USAGE}\n--jobs goes with --batch FILE alone\nexpected: --batch FILE --jobs N\n".encode()
    assert not (fonts_room / "six-0").exists() and not (fonts_room / "out").exists()
    for number in ("1", "2", "64", "01", "0064"):
        status, out, _ = run(["--batch=requests", f"--jobs={number}"], fonts_room)
        assert status == 0 and out.startswith(b'{"line":1,"status":0,') and made(fonts_room, GOOD[:1]) != [None]


@by_cargo
@pytest.mark.parametrize(("requests", "status"), [(GOOD, 0), (GOOD[:1], 0), ([], 0), (WRONG[:1] + GOOD, 1), (GOOD + WRONG[1:2], 1), (WRONG, 1), ([*GOOD[:2], {"in": 1}], 1), ([{"in": 1}, {"in": 2}], 1),
                                                  ([*GOOD, GOOD[0]], 1), (MANY, 1), ([{"in": "small", "out": out, "text": "A", "quiet": True, **({"pdf": pdf} if pdf else {})} for out, pdf in PAIRS], 1)],
                         ids=["all are done", "one", "none", "the first fails", "the last fails", "all fail", "a wrong line", "wrong lines alone", "OUT twice", "many lines", "PDFs"])
def test_jobs_ends(fonts_room, requests, status):
    """The status, the answers and the files are those of a run without `--jobs`."""
    # (blank lines are counted, and no requests)
    text = b"\n" + lines_of(requests).replace(b"}\n", b"}\n\n", 2)
    base, files = batch(fonts_room, text)[0], made(fonts_room, requests)
    assert base[0] == status and base[1].count(b"\n") == len(requests)
    for words, given in ((["--batch", "requests", "--jobs", "4"], {}), (["--jobs", "4", "--batch", "-"], {"input": text})):
        assert run(words, fonts_room, **given) == base and made(fonts_room, requests) == files


@by_cargo
@pytest.mark.parametrize("file", ["none", "six/none"])
def test_jobs_without_file(fonts_room, file):
    base = run(["--batch", file], fonts_room)
    assert base[0] == 2 and base[2].startswith(f"cannot read {file}\n".encode()) and run(["--batch", file, "--jobs", "4"], fonts_room) == base


@by_cargo
def test_unwritten_answers(fonts_room):
    """Where an answer can't be written no further source is opened, and of a source no further request is begun."""
    os.mkfifo(fonts_room / "pipe")
    last, many = {"in": "pipe", "out": "last", "gids": [1]}, [{"in": "six", "out": f"many-{k}", "gids": [1], "quiet": True} for k in range(1000)]
    # (a wrong line is answered before any source is opened)
    for requests, jobs in (([GOOD[0], last], []), ([GOOD[0], last], ["--jobs", "3"]), ([{"in": 1}, last], []), ([{"in": 1}, last], ["--jobs", "3"]), (many, ["--jobs", "1"])):
        (fonts_room / "requests").write_bytes(lines_of(requests))
        with open("/dev/full", "wb") as full:
            got = subprocess.run([*COMMAND, "--batch", "requests", *jobs], cwd=fonts_room, stdout=full, stderr=subprocess.PIPE, check=False, timeout=LATE)
        assert (got.returncode, got.stderr) == (3, b"cannot write standard output\n"), (requests[0], jobs)
    done = [it for it in made(fonts_room, many) if it]
    assert not (fonts_room / "last").exists() and 0 < len(done) < len(many)


@by_cargo
def test_jobs_refused(fonts_room, refuser, tmp_path_factory):
    """Where memory is refused before the first request, the run ends with a status; the last room that is requested is that of the answers."""
    top, ends = tmp_path_factory.mktemp("counts"), []
    assert refused(fonts_room, refuser, top, 0, [], "--jobs", "2")[0] == (0, b"", b"")
    for number in range(1, int(read(top / "counts").split()[0]) + 1):
        got, _, is_refused = refused(fonts_room, refuser, top, number, [], "--jobs", "2")
        ends.append(got)
        assert is_refused and (got in ((0, b"", b""), (1, b"", b"out of memory\n"), (2, b"", b"cannot read requests\nout of memory\n")) or ended_by_std(got)), (number, got)
    assert len(ends) > 5 and ends[-1] == (1, b"", b"out of memory\n")


# Notes each thread that is requested, and each opening of the two fonts; refuses the threads that have a 1 in REFUSED. With SAID it says `w` where a thread
# opens a new font, and `d` where it waits for its disk; each goes on once there is a byte for it, or none will be.
THREADS = r"""
#define _GNU_SOURCE
#include <dlfcn.h>
#include <errno.h>
#include <fcntl.h>
#include <pthread.h>
#include <stdarg.h>
#include <stdlib.h>
#include <string.h>
#include <unistd.h>

static size_t count;

static void note(char sign) {
    int file = getenv("NOTED") ? open(getenv("NOTED"), O_WRONLY | O_CREAT | O_APPEND, 0600) : -1;
    if (file >= 0 && write(file, &sign, 1) == 1) close(file);
}

static void stop(const char *sign, const char *byte) {
    char one;
    if (!getenv("SAID")) return;
    if (write(atoi(getenv("SAID")), sign, 1) != 1) abort();
    while (read(atoi(getenv(byte)), &one, 1) < 0 && errno == EINTR) {}
}

int open64(const char *name, int how, ...) {
    int (*real)(const char *, int, ...) = dlsym(RTLD_NEXT, "open64");
    va_list more;
    va_start(more, how);
    int rights = how & O_CREAT ? va_arg(more, int) : 0;
    va_end(more);
    if (!strcmp(name, "six") || !strcmp(name, "small")) note('o');
    if (how & O_EXCL) stop("w", "WORKS");
    return real(name, how, rights);
}

int fdatasync(int file) {
    int (*real)(int) = dlsym(RTLD_NEXT, "fdatasync");
    stop("d", "WAITS");
    return real(file);
}

int pthread_create(pthread_t *thread, const pthread_attr_t *how, void *(*call)(void *), void *with) {
    int (*real)(pthread_t *, const pthread_attr_t *, void *(*)(void *), void *) = dlsym(RTLD_NEXT, "pthread_create");
    const char *refused = getenv("REFUSED") ? getenv("REFUSED") : "";
    size_t at = count++;
    note('t');
    return at < strlen(refused) && refused[at] == '1' ? EAGAIN : real(thread, how, call, with);
}
"""


@pytest.fixture(scope="module")
def threads(tmp_path_factory):
    source = tmp_path_factory.mktemp("threads") / "threads.c"
    source.write_text(THREADS)
    return library("threads", source, source.parent)


@by_cargo
@pytest.mark.parametrize(("requests", "number", "refused_ones", "count"), [
    # Six requests of one source, and five of the other: twice as many threads as N, or one, or one for each request.
    *((GOOD, *it) for it in (("1", "", 2), ("2", "", 8), ("3", "", 11), ("5", "", 11), ("64", "", 11), ("2", "1", 8), ("2", "01", 8), ("2", "0001", 8), ("2", "1111", 8), ("2", "00001111", 8), ("3", "1" * 11, 11),
                             ("1", "11", 2))),
    # 50 lines are four pieces, of which each may have a thread, up to N with the one that there is; 21 requests of each source are begun.
    *((MANY, number, refused_ones, of_lines + 2 * min(1 if number == "1" else 2 * int(number), 21))
      for number, refused_ones, of_lines in (("1", "", 0), ("2", "", 1), ("4", "", 3), ("9", "", 3), ("4", "1", 1), ("4", "01", 2), ("4", "1" * 40, 1)))])
def test_threads(fonts_room, threads, tmp_path_factory, requests, number, refused_ones, count):
    """How many threads are requested; where the system has none, or some, all is done by those."""
    noted = tmp_path_factory.mktemp("noted") / "noted"
    own = [it for it in requests if "out" in it]
    base, files = batch(fonts_room, lines_of(requests), env={"LD_PRELOAD": threads, "NOTED": str(noted)})[0], made(fonts_room, own)
    assert read(noted) == b"oo"
    remove(noted)
    got = batch(fonts_room, lines_of(requests), "--jobs", number, env={"LD_PRELOAD": threads, "NOTED": str(noted), "REFUSED": refused_ones})[0]
    assert got == base and made(fonts_room, own) == files
    assert (read(noted).count(b"t"), read(noted).count(b"o")) == (count, 2)


class Stopped:
    """A batch whose threads stop where they open a new font, and where they wait for its disk."""

    def __init__(self, room, preloaded, words):
        pipes = {name: os.pipe() for name in ("SAID", "WORKS", "WAITS")}
        theirs = {name: pipe[name == "SAID"] for name, pipe in pipes.items()}
        self.said, self.bytes = pipes["SAID"][0], {"w": pipes["WORKS"][1], "d": pipes["WAITS"][1]}
        self.ran = subprocess.Popen([*COMMAND, *words], cwd=room, env={"LD_PRELOAD": preloaded, **{name: str(it) for name, it in theirs.items()}}, pass_fds=tuple(theirs.values()),
                                    stdin=subprocess.DEVNULL, stdout=subprocess.PIPE, stderr=subprocess.PIPE)
        for it in theirs.values():
            os.close(it)

    def states(self):
        """How each thread is, as the system says: S where it sleeps."""
        found = ""
        with contextlib.suppress(OSError):
            for it in os.listdir(f"/proc/{self.ran.pid}/task"):
                with open(f"/proc/{self.ran.pid}/task/{it}/stat", "rb") as file:
                    found += file.read().rpartition(b")")[2].split()[0].decode()
        return found

    def signs(self, count, threads):
        """`count` signs, and the further ones until all threads sleep, in the order of letters."""
        found = b""
        while len(found) < count and select.select([self.said], [], [], LATE)[0]:
            found += os.read(self.said, 1)
        end, times = time.monotonic() + 30, 0
        while times < 5 and time.monotonic() < end and self.ran.poll() is None:
            times = times + 1 if self.states() == "S" * threads else 0
            time.sleep(0.01)
        while select.select([self.said], [], [], 0)[0] and (sign := os.read(self.said, 1)):
            found += sign
        return "".join(sorted(found.decode()))

    def let(self, signs):
        """Lets a thread go on for each sign."""
        with contextlib.suppress(BrokenPipeError):
            for it in signs:
                os.write(self.bytes[it], b"x")

    def end(self, is_well):
        """Lets all go on to the end, which doesn't come where something is wrong."""
        for it in self.bytes.values():
            os.close(it)
        try:
            out, err = self.ran.communicate(timeout=LATE if is_well else 1)
        except subprocess.TimeoutExpired:
            self.ran.kill()
            out, err = self.ran.communicate()
        os.close(self.said)
        return self.ran.returncode, out, err


@by_cargo
@pytest.mark.parametrize("number", [2, 3])
def test_turns(fonts_room, threads, number):
    """N threads work at a time and no more; while they wait for the disk as many others work, and then they wait until these do."""
    requests = [{"in": "six", "out": f"stopped-{k}", "gids": [1]} for k in range(3 * number)]
    base, files = batch(fonts_room, requests)
    works, waits = "w" * number, "d" * number
    stopped, found, wanted = Stopped(fonts_room, threads, ["--batch", "requests", "--jobs", str(number)]), [], [works, waits + works, "", waits + works]
    for going, signs in zip(("", works, waits, works), wanted):
        stopped.let(going)
        found.append(stopped.signs(len(signs), 1 + 2 * number))
        if found[-1] != signs:
            break
    got = stopped.end(found == wanted)
    assert found == wanted and got == base and made(fonts_room, requests) == files
