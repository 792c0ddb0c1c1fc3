"""How a comparison is asked, how it reports, and how it ends."""
import argparse
import collections
import concurrent.futures
import os
import sys
import time

import build

# Printed lines of differences, at most.
LINES = 40


class Report:
    """What came of a font, or of a piece of the work."""

    def __init__(self, label):
        self.label, self.counts, self.wrong = os.path.basename(label), collections.Counter(), []

    def say(self, kind, text):
        self.wrong.append(f"{self.label}: {kind}: {text}")


def words(**own):
    """The arguments that all take, and its own numbers and words: for each the usual one, and that of --short."""
    parser = argparse.ArgumentParser()
    parser.add_argument("--short", action="store_true")
    parser.add_argument("--seed", default="1")
    parser.add_argument("--only", default="")
    parser.add_argument("--jobs", type=int, default=2)
    parser.add_argument("--minutes", type=float, default=1e6)
    for name, pair in own.items():
        parser.add_argument(f"--{name}", type=type(pair[0]))
    given = parser.parse_args()
    for name, pair in own.items():
        if getattr(given, name) is None:
            setattr(given, name, pair[given.short])
    given.folders = os.environ.get("FONTS", "").split()
    given.end = None
    return given


def beside(words, call, rows, part=1):
    """What a call returns for each row, some of them at a time, in this part of the time that is left. The minutes begin with the first call."""
    words.end = words.end or time.monotonic() + 60 * words.minutes
    end = time.monotonic() + part * (words.end - time.monotonic())
    with concurrent.futures.ProcessPoolExecutor(words.jobs) as pool:
        waiting, found, rows = set(), [], iter(rows)
        for row in rows if time.monotonic() < end else ():
            waiting.add(pool.submit(call, *row))
            if len(waiting) > words.jobs:
                done, waiting = concurrent.futures.wait(waiting, return_when=concurrent.futures.FIRST_COMPLETED)
                found += [it.result() for it in done]
            if time.monotonic() > end:
                break
        return found + [it.result() for it in waiting]


def total(reports):
    counts = collections.Counter()
    for it in reports:
        counts.update(it.counts)
    return counts


def end(reports, compared, text):
    """Prints the differences and the answer, and ends the script: with status 1 where something differs, or nothing was compared."""
    wrong = [line for it in reports for line in it.wrong]
    for line in wrong[:LINES]:
        print(line[:400])
    print(f"{build.NAME}: {text}; {compared} compared, {len(wrong)} differ", flush=True)
    sys.exit(1 if wrong or not compared else 0)
