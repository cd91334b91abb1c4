#!/usr/bin/env python3
"""Compares the library with the reference reading (tools/walker.py), on random sheets (tools/random_sheets.py) under random settings.

  hosts/check.py [--seconds 60] [--seed 1] [--library FILE] [--host FILE] [--box FILE]

The library is crates/vodlasim_c/out/libvodlasim_c.a; a shared object is made of it with gcc and called in this process. With --host every
twentieth case goes through the C host as well; with --box its sheet goes through the box program, under the box's setting.

Each slice is lent with guard bytes around it and rubbish in it. Looked at after each call: the report, the listing, that the output beyond
it holds what it held, that the work words are all zero, and that the sheet and all guards are as they were.
"""
import argparse
import ctypes
import pathlib
import random
import subprocess
import sys
import tempfile
import time
from collections import Counter

sys.path.insert(0, str(pathlib.Path(__file__).resolve().parent.parent / "tools"))
import random_sheets
import walker

SHEETS, SETTINGS = 300, 3               # sheets for each run of the walker, and settings for each sheet
SHARE = 20                              # one case in so many goes through the host and the box
GUARD = 64                              # bytes before and after each slice
ENDS = ("done", "spent", "path", "output")
REFUSALS = (*range(1, 15), 17)          # of a run; 15 and 16 are those of a move
WORD = ctypes.c_uint32
BOX = dict(path=512, budget=1000000, skip=0, output=4096, words=12288)
FREE = dict(path=3000, budget=3000, skip=0, output=100000, words=walker.words_for(3000))


# ---------------------------------------------------------------- random cases

def batch(rng):
    """Random cases."""
    sheets = [random_sheets.drawn(rng) for _ in range(SHEETS)]
    free = walker.pages([walker.Case(sheet, **FREE) for sheet in sheets])
    return [drawn(rng, sheet, walker.outcome(page)) for sheet, page in zip(sheets, free) for _ in range(SETTINGS)]


def drawn(rng, sheet, free):
    """The sheet under a random setting; some limits lie at what the run needs, one more and one less. `free` is the outcome of a run that
    has as good as no limits."""
    near = rng.choice((-1, 0, 0, 1))
    path = rng.choice((rng.randint(1, min(3 + free.nodes, 60)), 512, 512, 3000))
    if rng.random() < 0.03:
        path = rng.choice((0, 32768, 32769, 2**32 - 1))
    budget = rng.choice((0, 1, 5, 20, 100, 1000, 3000, 3000, max(0, free.nodes + near)))
    skip = rng.choice((0, 0, 0, 0, 1, 2, 7, 2**32 - 1, max(0, free.answers + free.errors + near)))
    output = rng.choice((0, 9, 30, 100, 1000, 4096, 4096, 20000, max(0, len(free.listing) + near)))
    words = walker.words_for(path) + rng.choice((0, 0, 0, 1, 77))
    if rng.random() < 0.04:
        words = rng.choice((0, 6143, walker.words_for(path) - 1))
    return walker.Case(sheet, path, budget, skip, output, words)


# ---------------------------------------------------------------- the library

class Lent:
    """A slice of so many bytes between two guards, all filled with rubbish."""

    def __init__(self, rng, size, content=None):
        self.size = size
        self.entry = bytearray(rng.randbytes(64) * ((2 * GUARD + size) // 64 + 1))[:2 * GUARD + size]
        if content is not None:
            self.entry[GUARD:GUARD + size] = content
        self.memory = (ctypes.c_ubyte * len(self.entry)).from_buffer_copy(self.entry)

    def pointer(self):
        return ctypes.c_void_p(ctypes.addressof(self.memory) + GUARD)

    def before(self):
        return bytes(self.entry[GUARD:GUARD + self.size])

    def after(self):
        return bytes(self.memory)[GUARD:GUARD + self.size]

    def guarded(self):
        now = bytes(self.memory)
        return now[:GUARD] == self.entry[:GUARD] and now[GUARD + self.size:] == self.entry[GUARD + self.size:]


def load(archive, folder):
    """The library, as a shared object."""
    shared = str(pathlib.Path(folder) / "vodlasim.so")
    subprocess.run(["gcc", "-shared", "-o", shared, "-Wl,--whole-archive", archive, "-Wl,--no-whole-archive"], check=True)
    return ctypes.CDLL(shared)


def call_of(library):
    """The call that runs a sheet."""
    run = library.vodlasim_run
    pointer, size = ctypes.c_void_p, ctypes.c_size_t
    run.argtypes = [pointer, size, WORD, WORD, WORD, pointer, size, pointer, size, pointer]
    run.restype = None
    return run


def report(due):
    """The eight numbers that are due for an outcome."""
    end = ENDS.index(due.end) if due.end else 0
    return [due.refused, due.place, end, due.nodes, due.answers, due.errors, due.fails, len(due.listing)]


def lend(rng, sheet, words, output):
    """The four slices of a call: sheet, work words, output and report."""
    return Lent(rng, len(sheet), sheet), Lent(rng, 4 * words), Lent(rng, output), Lent(rng, 64)


def changed(lent, report, written):
    """What is wrong with the slices after a call, where these are the report and the bytes that are due."""
    sheet, work, output, reported = lent
    got = [int.from_bytes(reported.after()[8 * k:8 * k + 8], "little") for k in range(8)]
    if got != report:
        yield "report %s, due %s" % (got, report)
    if output.after() != written + output.before()[len(written):]:
        yield "output %r.., due %r and then what it held" % (output.after()[:len(written) + 16], written)
    if work.after() != bytes(work.size):
        yield "work words not all zero"
    if sheet.after() != sheet.before():
        yield "sheet changed"
    if not all(slice.guarded() for slice in lent):
        yield "guard bytes changed"


def faults(run, rng, case, due):
    """What is wrong after one call."""
    lent = sheet, work, output, reported = lend(rng, case.sheet, case.words, case.output)
    run(sheet.pointer(), sheet.size, case.path, case.budget, case.skip, work.pointer(), case.words, output.pointer(), output.size,
        reported.pointer())
    return changed(lent, report(due), due.listing)


# ---------------------------------------------------------------- the programs

def host_prints(host, folder, case):
    file = pathlib.Path(folder) / "sheet"
    file.write_bytes(case.sheet)
    return subprocess.run([host, str(file), *map(str, case[1:])], stdout=subprocess.PIPE, check=True).stdout


def box_prints(box, case):
    return subprocess.run([box], input=case.sheet, stdout=subprocess.PIPE, check=True).stdout


# ---------------------------------------------------------------- the comparison

def compare(case, wrong):
    """Ends the comparison where something is wrong with a case."""
    if wrong:
        sys.exit("DIFFER\n%s\n%s" % (case, "\n".join(wrong)))


def compare_library(run, rng, cases, ended):
    for case, page in zip(cases, walker.pages(cases)):
        due = walker.outcome(page)
        compare(case, list(faults(run, rng, case, due)))
        ended[due.end or "refused %d" % due.refused] += 1


def compare_program(name, prints, cases, ended):
    for case, page in zip(cases, walker.pages(cases)):
        printed = prints(case)
        compare(case, [] if printed == page else ["the %s prints %r, due %r" % (name, printed, page)])
        ended[name] += 1


def check(given, folder):
    """How many runs were alike, by their end or refusal, and by program."""
    rng, until, ended = random.Random(given.seed), time.monotonic() + given.seconds, Counter()
    run = call_of(load(given.library, folder))
    while not ended or time.monotonic() < until:
        cases = batch(rng)
        compare_library(run, rng, cases, ended)
        some = cases[::SHARE]
        if given.host:
            compare_program("host", lambda case: host_prints(given.host, folder, case), some, ended)
        if given.box:
            compare_program("box", lambda case: box_prints(given.box, case), [walker.Case(case.sheet, **BOX) for case in some], ended)
    return ended


def arguments(*programs):
    """What every comparison is told: how long, from which seed, with which library; and the programs that it can ask beside."""
    parser = argparse.ArgumentParser()
    parser.add_argument("--seconds", type=float, default=60)
    parser.add_argument("--seed", type=int, default=1)
    parser.add_argument("--library", default=str(walker.ROOT / "crates/vodlasim_c/out/libvodlasim_c.a"))
    for program in programs:
        parser.add_argument(program)
    given = parser.parse_args()
    if not pathlib.Path(given.library).exists():
        parser.error("no library at %s: `rt lib` in crates/vodlasim_c makes it" % given.library)
    return given


def main():
    given = arguments("--host", "--box")
    with tempfile.TemporaryDirectory() as folder:
        ended = check(given, folder)
    ends = ENDS + tuple("refused %d" % number for number in REFUSALS)
    print("%d runs alike:" % sum(ended[end] for end in ends), ", ".join("%s %d" % (end, ended[end]) for end in ends))
    for program in ("host", "box"):
        if ended[program]:
            print("%d pages of the %s alike" % (ended[program], program))


if __name__ == "__main__":
    main()
