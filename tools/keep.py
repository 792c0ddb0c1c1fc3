"""Lets `rt lib` and `rt check` take the libraries that `rt ci` has just proved, in place of proving them again.

    keep.py sums FILE     before `rt ci`: writes the sum of each library's sources, as the kit reckons it
    keep.py stamp FILE    after `rt ci` has passed: stamps each library that it built

`rt ci` leaves its libraries without the stamp by which the other commands know one that is proved, since one of them fits only
those that it was built over. All of one run fit one another. So either all are stamped or none: none where one isn't there, where
a session's own work was put back beside them, or where a source has changed since the sums were written. Then the other commands
prove what they need, as they would without this.
"""
import functools
import importlib.machinery
import importlib.util
import json
import os
import subprocess
import sys

ROOT = os.path.dirname(os.path.dirname(os.path.realpath(__file__)))


def kit():
    """The kit's own library, which knows the crates and their sums."""
    sys.dont_write_bytecode = True
    said = subprocess.run(["rt", "doc"], stdout=subprocess.PIPE, text=True, check=True).stdout.strip()
    path = os.path.join(os.path.dirname(said), "bin", "rtlib.py")
    loader = importlib.machinery.SourceFileLoader("rtlib", path)
    made = importlib.util.module_from_spec(importlib.util.spec_from_loader("rtlib", loader))
    sys.modules["rtlib"] = made
    loader.exec_module(made)
    # A crate's sum has those of the crates below it: each is reckoned once.
    made.Crate.stamp = functools.cache(made.Crate.stamp)
    return made


def libraries():
    """The repository's libraries, by name."""
    return {it.name: it for it in kit().crates_below(ROOT) if not it.is_program and not it.is_static}


def stamp_of(crate):
    return os.path.join(os.path.dirname(crate.rlib), "stamp")


def why_not(found, before):
    """Why no library is stamped, if so."""
    for name, crate in found.items():
        if not os.path.isdir(crate.rlib):
            return f"{name} isn't built"
        if os.path.lexists(stamp_of(crate)):
            return f"{name} has a stamp"
        if before.get(name) != crate.stamp():
            return f"{name} has changed"
    return None


def main(words):
    if len(words) != 2 or words[0] not in ("sums", "stamp"):
        sys.exit("usage: keep.py sums|stamp FILE")
    found = libraries()
    if words[0] == "sums":
        with open(words[1], "w", encoding="utf-8") as file:
            json.dump({name: crate.stamp() for name, crate in found.items()}, file)
        return
    with open(words[1], encoding="utf-8") as file:
        before = json.load(file)
    why = why_not(found, before)
    if why:
        print(f"keep.py: {why}: the libraries are proved again")
        return
    for crate in found.values():
        with open(stamp_of(crate), "w", encoding="utf-8") as file:
            file.write(crate.stamp())
    print(f"keep.py: {len(found)} libraries of this run are kept")


if __name__ == "__main__":
    main(sys.argv[1:])
