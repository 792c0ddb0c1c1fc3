"""Has each system call of the program fail in turn, and looks at how it ends and what it leaves: faults --only WORD

The program runs in its main ways (lib/fault_runs.py). strace has one of its system calls fail. What docs/CLI.md promises is demanded of each run: a
status of its table, a message that names the file and the system's reason, OUT and the PDF as they were or whole, with their rights, and no other
file. (tests/test_files.py has standard streams, links, owners, rights and limits on the size of files.)

    calls     each call gives each of its usual errors (also those of a quota, of a disk that is full or read-only, and of a signal),
              and each such call from there on; a write takes no byte
    signals   at each call the program gets a signal: OUT is as it was or whole, and so it is after another run
              (the short form has those that kill while it writes a PDF)
    disk      OUT is on a disk of few pages, or of few files, and on one that is read-only (mounted in a namespace)

--only takes what has this word in its name, as `calls:OUT-over-a-file`. Quotas can't be set everywhere: EDQUOT is injected.
"""
import ctypes
import dataclasses
import errno
import os
import shutil
import signal
import subprocess
import tempfile

import build
import fault_rules as rules
import report as reports
from fault_runs import WAYS, Room, Trouble


def demand(report, holds, what, why):
    if not holds:
        report.say(what, str(why)[:600])
    return holds


def note(report, end):
    report.counts.update({"runs": 1, end: 1})


# ---- each call fails

def done_to(step):
    """What is done to a step: how, and with which number."""
    numbers = rules.USUAL.get(step.call, rules.OTHERS)
    yield from (("error", number) for number in numbers)
    # (a signal that comes again and again lets no call end)
    yield from (("errors", number) for number in [it for it in numbers if it != errno.EINTR][:2])
    if step.call == "write":
        yield "nothing", 0


class Base:
    """A way's run without a fault, and the files before it."""

    def __init__(self, report, room, way):
        self.before, self.got = room.lay(way), room.run(way)
        self.roles = rules.Roles(way, self.got.steps)
        early, is_beside = rules.early_name(self.got.steps), self.roles.beside < len(self.got.steps)
        demand(report, self.got.status == way.status, "at first", self.got)
        demand(report, len(self.got.steps) - self.roles.first > 1, "at first", f"{len(self.got.steps)} calls, of which none is about a file")
        demand(report, early is None, "at first", f"{early} gets its name before its bytes are on the disk")
        demand(report, not (is_beside and way.links), "at first", "a file is made beside it")
        demand(report, len(self.roles.looks) == len(way.written), "at first", f"what is looked at before it is written: {self.roles.looks}")

    def inject(self, at, how, number):
        """What is done to a call, in the words of strace."""
        call = self.got.steps[at].call
        what = {"signal": f"signal={signal.Signals(number).name if how == 'signal' else ''}", "nothing": "retval=0"}.get(how, f"error={errno.errorcode.get(number)}")
        # (Linux refuses brk by an end of the heap that is too low, and by no error)
        what = "retval=0" if call == "brk" and how != "signal" else what
        return f"{call}:{what}:when={[it.call for it in self.got.steps[:at + 1]].count(call)}{'+' * (how == 'errors')}"


def judge(report, room, way, base, at, how, number):
    """Whether a run with something done to one call ends as it may."""
    is_start, inject = at < base.roles.first, base.inject(at, how, number)
    got, what = room.run(way, inject), f"{inject} {' '.join(base.roles.names[at])}"
    made, steps = [it.call for it in got.steps[:at + 1]], [it.call for it in base.got.steps[:at + 1]]
    if not demand(report, made == steps, what, f"another way to there: {made[-5:]}"):
        return
    # (until a file is cut it is as it was, also one that is written in place)
    held = dataclasses.replace(way, in_place=way.in_place and at > base.roles.cut)
    end = rules.ended(held, base.before, base.got, got, number)
    wanted = rules.allowed_from(base.roles, at, number, is_start) if how == "errors" else rules.allowed(base.roles, at, how, number, is_start)
    note(report, end or "wrong")
    demand(report, end in wanted, what, f"{end} {got}, where it may end with {sorted(wanted)}")
    early = rules.early_name(got.steps)
    demand(report, early is None, what, f"{early} gets its name before its bytes are on the disk")


def check_calls(report, room, way):
    """(Of one way also the calls before the first about a file, which are those of the C library and of Rust's: nothing may be touched.)"""
    base = Base(report, room, way)
    for at, step in enumerate(base.got.steps):
        if step.call not in rules.NEVER and (at >= base.roles.first or way.name == "OUT over a file"):
            for how, number in done_to(step):
                judge(report, room, way, base, at, how, number)


# ---- signals

# The ways, each with its signals.
KILLING = (signal.SIGKILL, signal.SIGTERM)
ALL_SIGNALS = (*KILLING, signal.SIGINT, signal.SIGHUP, signal.SIGQUIT, signal.SIGXFSZ, signal.SIGPIPE)
SIGNALLED = {"OUT over a file": ALL_SIGNALS, "a new OUT": KILLING, "a PDF and OUT": KILLING, "OUT a link": KILLING, "OUT to standard output": KILLING}


def new_files(way, before, base, got):
    """Of each file that is written whether it is new; None where one is neither what it was nor whole, or another file is there."""
    beside = [it for it in got.files if (found := rules.BESIDE.fullmatch(it)) and found[1] in way.written]
    rest = (before.keys() | got.files.keys()) - {*way.written, *way.second_names, *beside}
    if not rules.as_before(got.files, before, rest):
        return None
    found = []
    for name in way.written:
        is_new, is_old = (same_file(got.files.get(name), it.get(name)) for it in (base.files, before))
        if not way.in_place and not is_new and not is_old:
            return None
        found.append(is_new)
    return found


def same_file(one, other):
    """Whether two files have the same bytes and rights; both may be missing."""
    return (one and (one.data, one.mode)) == (other and (other.data, other.mode))


def check_signals(report, room, way):
    base = Base(report, room, way)
    for at in range(base.roles.first - 1, len(base.got.steps)):
        for number in SIGNALLED[way.name] if base.got.steps[at].call not in rules.NEVER else ():
            what = base.inject(at, "signal", number)
            got = room.run(way, what)
            new = new_files(way, base.before, base.got, got)
            is_ended = got.signal == number or (number == signal.SIGPIPE and got.signal is None and rules.ended(way, base.before, base.got, got, 0) == "whole")
            note(report, "whole" if got.signal is None else "ended by a signal")
            demand(report, is_ended and new is not None, what, got)
            # (a PDF is written before OUT)
            demand(report, new is None or new == sorted(new, reverse=True), what, f"OUT is new, and the PDF isn't: {got}")
            again = room.run_alone(way, is_laid=False)
            demand(report, (again.status, again.out) == (way.status, base.got.out) and all(same_file(again.files[it], base.got.files[it]) for it in way.written), f"{what}, and another run", again)


# ---- a disk

ON_DISK = ("a new OUT", "OUT over a file", "OUT over IN", "a PDF and OUT")
NAMESPACES = 0x10000000 | 0x00020000


def take_namespace():
    """Makes this process root of a namespace, in which it can mount."""
    if os.environ.get("FAULTS_INSIDE") == str(os.getpid()):
        return
    ids = (("uid_map", os.geteuid()), ("gid_map", os.getegid()))
    if ctypes.CDLL(None).unshare(NAMESPACES):
        raise Trouble("no namespace can be made here, so no disk is mounted")
    for name, text in (("setgroups", "deny"), *((name, f"0 {number} 1") for name, number in ids)):
        with open(f"/proc/self/{name}", "w", encoding="ascii") as file:
            file.write(text)
    subprocess.run(["mount", "--make-rprivate", "/"], check=True)
    os.environ["FAULTS_INSIDE"] = str(os.getpid())


def on_disk(report, room, way, base, options, what, wanted):
    """A run where `work` is a disk of its own."""
    subprocess.run(["mount", "-t", "tmpfs", "-o", "size=1m", "none", room.work], check=True)
    try:
        before = room.lay(way)
        subprocess.run(["mount", "-o", f"remount,{options}", room.work], check=True)
        got = room.run_alone(way, is_laid=False)
    finally:
        subprocess.run(["umount", room.work], check=True)
    end = rules.ended(way, before, base, got, 0)
    note(report, end or "wrong")
    demand(report, end in wanted, what, f"{options}: {end} {got}, where it may end with {sorted(wanted)}")
    return end


def check_disk(report, room, way):
    take_namespace()
    base, unwritten, refused = room.run_alone(way), {f"cannot write {it}" for it in way.written}, {f"cannot write {way.written[0]}"}
    before = room.lay(way)
    taken = sum(-(-len(it.data) // 4096) for it in before.values())
    ends = {on_disk(report, room, way, base, f"size={4 * (taken + more)}k", "a disk with so many pages left", unwritten | {"whole"}) for more in range(18)}
    demand(report, ends == unwritten | {"whole"}, "a disk with 0 to 17 pages left", f"it ends with {ends}")
    on_disk(report, room, way, base, "ro", "a disk that may be read alone", refused)
    # (the old file's own pages would do for some of these fonts: it isn't cut all the same)
    on_disk(report, room, way, base, f"nr_inodes={len(before) + 1}", "a disk that takes no other file", refused)
    on_disk(report, room, way, base, f"nr_inodes={len(before) + 1},size={4 * taken}k", "a disk that takes no other file, and has no room", refused)


# ---- all

# The ways of the short form; and each part, with the ways that it takes: first those of few runs.
SHORT = ("a new OUT", "OUT over a file", "OUT over IN", "OUT with a second name", "OUT of another group", "a PDF and OUT", "OUT to standard output")
PARTS = {"disk": (check_disk, lambda way: way.name in ON_DISK), "signals": (check_signals, lambda way: way.name in SIGNALLED), "calls": (check_calls, lambda way: None not in way.groups.values())}


def task(program, part, way):
    """A part of the work with a way, in a folder of its own."""
    report = reports.Report(f"{part}:{way.name}")
    # (a signal that is ignored here, as by a shell's `&`, would be ignored by the program, too)
    for it in (signal.SIGINT, signal.SIGHUP, signal.SIGQUIT):
        signal.signal(it, signal.SIG_DFL)
    with tempfile.TemporaryDirectory(prefix="faults-") as top:
        room = Room(os.path.realpath(top), os.path.join(os.path.realpath(top), "program"))
        shutil.copy(program, room.program)
        try:
            PARTS[part][0](report, room, way)
        except Trouble as trouble:
            report.say("a run", trouble)
    demand(report, report.counts["runs"], "a run", "nothing was injected")
    return report


def main():
    words, program = reports.words(), build.program()
    ways = [it for it in WAYS if not words.short or it.name in SHORT]
    tasks = [(program, part, way) for part, (_, takes) in PARTS.items() for way in ways if takes(way) and words.only in f"{part}:{way.name}".replace(" ", "-") and not (words.short and part == "signals" and way.name != "a PDF and OUT")]
    # (processes that have mounted a disk can't give files to groups any more)
    found = reports.beside(words, task, [it for it in tasks if it[1] == "disk"]) + reports.beside(words, task, [it for it in tasks if it[1] != "disk"])
    counts = reports.total(found)
    ends = {end: sum(number for name, number in counts.items() if name == end or name.startswith(end + " ")) for end in ("whole", "cannot read", "cannot write", "out of memory", "stopped", "ended by a signal")}
    reports.end(found, counts["runs"], f"runs of {len(found)} of {len(tasks)} ways and kinds of faults of the system, which end as docs/CLI.md has it: {', '.join(f'{end} {number}' for end, number in ends.items())}")
