"""How a run of the program may end in which a system call fails, by docs/CLI.md: for faults.py."""
import errno
import os
import re

# A second name that OUT has until it is whole.
BESIDE = re.compile(r"(.+)\.part\d+")
MEMORY = ("brk", "mmap", "mremap", "munmap", "mprotect", "madvise")
READING = ("open", "openat", "read", "pread64")
WRITING = ("write", "pwrite64", "writev", "fdatasync", "fsync", "rename", "renameat", "renameat2", "ftruncate")
RENAMING = ("rename", "renameat", "renameat2")
REMOVING = ("unlink", "unlinkat")
# Those that a signal can interrupt where a disk is slow, and that are made again then.
INTERRUPTED = ("open", "openat", "read", "write", "fdatasync", "fsync", "fchmod", "lstat", *REMOVING)
# What a file says that has no disk which its bytes could reach.
NO_SYNC = (errno.EINVAL, errno.ENOSYS, errno.EOPNOTSUPP)
# What a disk says that has no room, or of which a user may take no more.
NO_ROOM = (errno.EDQUOT, errno.ENOSPC)
# The other errors that manual pages list, by the call.
DISK = (errno.EDQUOT, errno.EIO, errno.ENOSPC, errno.EROFS)
USUAL = {
    **dict.fromkeys(("open", "openat"), (errno.EACCES, errno.EINTR, errno.EMFILE, errno.ENFILE, errno.ENOMEM, *DISK)),
    "read": (errno.EINTR, errno.EIO, errno.ENOMEM),
    "write": (errno.EFBIG, errno.EINTR, errno.EPIPE, *DISK),
    **dict.fromkeys(("fdatasync", "fsync"), (errno.EINTR, errno.EINVAL, *DISK)),
    **dict.fromkeys(("rename", "renameat2"), (errno.EACCES, errno.EBUSY, errno.ENOMEM, *DISK)),
    "linkat": (errno.EACCES, errno.EMLINK, errno.EPERM, *DISK),
    **dict.fromkeys(("statx", "newfstatat"), (errno.EACCES, errno.EIO, errno.ENOMEM)),
    "fstat": (errno.EIO, errno.ENOMEM),
    "fchmod": (errno.EINTR, errno.EIO, errno.EPERM, errno.EROFS),
    "copy_file_range": (errno.EFBIG, errno.ENOSYS, errno.EXDEV, *DISK),
    "close": (errno.EINTR, *DISK[:3]),
    "fcntl": (errno.EMFILE, errno.EINVAL),
    **dict.fromkeys(MEMORY, (errno.ENOMEM,)),
}
OTHERS = (errno.EINTR, errno.EIO, errno.ENOMEM)
# What is said of a file that another run seems to write.
BUSY = "resource busy\n"
# How a run ends in which a file beside OUT can't be removed, after what it ends with.
FILE_LEFT = ", and a file beside it is left"
# These can't fail.
NEVER = ("exit", "exit_group", "rt_sigreturn")


def reason_of(number):
    return f"{os.strerror(number)} (os error {number})"


def opens_for_reading(step):
    return step.call in ("open", "openat") and "O_RDONLY" in step.arguments


def looks_at_name(step):
    """Whether a name itself is looked at, and not what a link leads to."""
    return step.call == "lstat" or "AT_SYMLINK_NOFOLLOW" in step.arguments


class Roles:
    """What each step of a way is about: `read`, `write`, `stdin`, `stdout`, `stderr`, or `own`, with the file's name."""

    def __init__(self, way, steps):
        self.way, self.steps = way, steps
        self.names = [it.names for it in steps]
        self.beside = next((at for at, names in enumerate(self.names) if any(BESIDE.fullmatch(it) for it in names)), len(steps))
        self.first = next((at for at in range(len(steps)) if self.role(at)[0] != "own"), len(steps))
        # (after the lines there is a message of no bytes)
        self.last_message = max((at for at, it in enumerate(steps) if it.call == "write" and "stderr" in self.names[at]), default=0) + 1
        # by these it is known what OUT, or the PDF, is
        self.looks = {}
        for at, it in enumerate(steps):
            if looks_at_name(it) and self.names[at] and self.role(at)[0] == "write" and not BESIDE.fullmatch(self.names[at][-1]):
                self.looks.setdefault(self.names[at][-1], at)
        # from this on a file that is written in place may be a part
        self.cut = next((at for at, it in enumerate(steps) if "O_TRUNC" in it.arguments and self.role(at)[0] == "write"), len(steps))
        # after these OUT, or the PDF, is whole
        self.named = {}
        for at, it in enumerate(steps):
            if it.call in RENAMING and it.gave == 0:
                self.named.setdefault(self.names[at][-1], at)

    def file(self, name):
        """The file that a message names for a name: that of a second name, and the link by which it is written."""
        found = BESIDE.fullmatch(name)
        name = found[1] if found else name
        return next((link for link, target in self.way.links.items() if target == name), name)

    def role(self, at):
        step, names = self.steps[at], self.names[at]
        for name in names:
            if name in ("stdin", "stdout", "stderr"):
                return name, "-"
            file = self.file(name)
            is_written = name in self.way.written or file in self.way.written or file in self.way.links
            is_read = file in self.way.reads()
            if is_read and is_written:
                is_written = at >= self.beside or looks_at_name(step) or (step.call in ("open", "openat") and not opens_for_reading(step))
            if is_written:
                return "write", file
            if is_read:
                return "read", file
        return "own", ""


# ---- how a run ended

def as_before(got, before, names):
    return all(got.get(it) == before.get(it) for it in names)


def ended(way, before, base, got, number):
    """How a run ended, in words; empty where that isn't one of the ends that docs/CLI.md has."""
    beside = {it for it in got.files if (found := BESIDE.fullmatch(it)) and found[1] in way.written}
    rest = (before.keys() | got.files.keys() | base.files.keys()) - {*way.written, *way.second_names, *beside}
    others = as_before(got.files, before, rest)
    untouched = others and not beside and as_before(got.files, before, way.written)
    is_whole = got.files == base.files
    if got.signal is not None or got.status not in (0, 1, 2, 3):
        return "stopped" if untouched and got.out == b"" else ""
    if got.status == base.status and got.out == base.out and is_whole and (got.err == base.err or is_cut(base.err, got.err)):
        return "whole" if got.err == base.err else "silent"
    as_base = (got.status, got.out, got.err) == (base.status, base.out, base.err)
    if way.in_place and beside and as_base and {it: got.files[it] for it in got.files.keys() - beside} == base.files:
        return "whole" + FILE_LEFT
    are_well = way.in_place or all(got.files.get(it) in (before.get(it), base.files.get(it)) for it in way.written)
    if got.status in (1, 2, 3) and got.err == b"" and others and not beside and are_well:
        return "mute"
    if got.status == 1 and got.err == b"out of memory\n" and untouched and got.out == b"":
        return "out of memory"
    if got.status != 3:
        return ""
    end = ended_by_lines(way, base, got, number) or ended_by_file(way, before, base, got, number, others)
    return end + FILE_LEFT if end and beside else end


def is_cut(whole, part):
    """Whether a part is a text without what is in the middle, at its begin or at its end: what one write of several lost."""
    same = len(os.path.commonprefix([whole, part]))
    return len(part) < len(whole) and whole.endswith(part[same:])


def ended_by_lines(way, base, got, number):
    """The same where the lines go to standard error, and a part of them is in front of the message."""
    found = re.fullmatch(rb"(.*?)cannot write standard output\n([^\n]*)\n", got.err, re.S)
    if not found or "-" not in way.words or (got.files, got.out) != (base.files, base.out):
        return ""
    is_well = base.err.startswith(found[1]) and (not number or found[2].decode(errors="replace") == reason_of(number))
    return "cannot write standard output" if is_well else ""


def ended_by_file(way, before, base, got, number, others):
    """The same where the message names a file, with the system's reason."""
    line, _, reason = got.err.decode(errors="replace").partition("\n")
    memory = "out of memory\n"
    if number and reason not in (reason_of(number) + "\n", memory if number == errno.ENOMEM else None, BUSY):
        return ""
    if line.startswith("cannot read "):
        is_well = others and as_before(got.files, before, way.written) and got.out == b""
        return line if is_well and line.removeprefix("cannot read ") in way.reads() else ""
    if line == "cannot write standard output":
        return line if got.files == base.files and base.out.startswith(got.out) else ""
    if line == "cannot write -":
        return line if "-" in way.words and base.out.startswith(got.out) and others and as_before(got.files, before, way.written) else ""
    names = [next((link for link, target in way.links.items() if target == it), it) for it in way.written]
    name = line.removeprefix("cannot write ")
    if name not in names or not others or got.out != b"":
        return ""
    at = names.index(name)
    is_well = as_before(got.files, base.files, way.written[:at]) and as_before(got.files, before, way.written[at + way.in_place:])
    return line if is_well else ""


# ---- how it may end

def allowed(roles, at, how, number, is_start):
    """The ends that a run may have where something is done to the step `at`."""
    step, (role, name), way = roles.steps[at], roles.role(at), roles.way
    # (whether a call about a stream neither reads nor writes it, nor opens it; and whether standard output has the font or the PDF)
    is_look = step.call == "close" or step.call == "fcntl" and "F_DUPFD" not in step.arguments
    has_font = "-" in way.words and not way.stdin
    if how == "error" and number == errno.EINTR and step.call in INTERRUPTED:
        return {"whole", *["stopped"] * is_start}
    if is_start:
        return {"whole", "stopped", "out of memory"}
    if step.call in MEMORY:
        return {"whole", "out of memory", *(f"cannot read {it}" for it in way.reads())}
    if role in ("read", "stdin"):
        must = step.call in (*READING, "fcntl", "dup") and not is_look
        return {f"cannot read {name}", *["whole"] * (not must)}
    if role == "write":
        is_whole = at > roles.named.get(way.links.get(name, name), len(roles.steps))
        is_done_without = is_whole or "O_EXCL" in step.arguments and number not in NO_ROOM or step.call in ("fdatasync", "fsync") and number in NO_SYNC
        must = step.call in (*WRITING, *REMOVING, "open", "openat") or at in roles.looks.values()
        # (a file that is written in place is whole then)
        left = {"whole" + FILE_LEFT} if step.call in REMOVING and way.in_place else set()
        return {f"cannot write {name}", *left} if must and not is_done_without else {"whole"}
    if role == "stdout":
        return {"whole"} if is_look else {"cannot write -" if has_font else "cannot write standard output"}
    if role == "stderr":
        # (it has messages, or the lines)
        return {"cannot write standard output"} if not is_look and has_font and at < roles.last_message else {"whole", "silent"}
    return {"whole", "out of memory"}


def allowed_from(roles, at, number, is_start):
    """The same where each such call from the step `at` on fails: standard error may fail, too."""
    once = allowed(roles, at, "errors", number, is_start)
    if roles.steps[at].call in REMOVING:
        return {it.removesuffix(FILE_LEFT) + FILE_LEFT for it in once} | {"silent", "mute"}
    if "whole" not in once:
        return once | {"silent", "mute"}
    names = {roles.file(it) for it in roles.way.written} | {"standard output", "-"}
    return once | {"whole", "silent", "mute", "out of memory", *(f"cannot write {it}" for it in names), *(f"cannot read {it}" for it in roles.way.reads())}


# ---- in each run

def early_name(steps):
    """A file that gets its name before its bytes are on the disk; None where there is none."""
    dirty = set()
    for step in steps:
        names = step.names
        if step.gave is None or not names:
            continue
        if step.call in ("write", "pwrite64", "writev", "copy_file_range", "sendfile", "ftruncate") and step.gave > 0:
            dirty.add(names[-1])
        if step.call in ("fdatasync", "fsync") and (step.gave == 0 or -step.gave in NO_SYNC):
            dirty.discard(names[0])
        if step.call in RENAMING and step.gave == 0 and names[0] in dirty:
            return names[0]
    return None
