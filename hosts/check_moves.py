#!/usr/bin/env python3
"""Compares the library's moves between editions, and its pass over sheets of edition 3, with the reference reading (tools/moves.py), on random cases.

  hosts/check_moves.py [--seconds 60] [--seed 1] [--library FILE] [--host FILE]

Every slice is lent, and looked at after each call, as hosts/check.py does. A sheet that was moved is moved back, which must give the same bytes, and
once more after some damage; one that had an empty range, or was passed, is passed, which must change nothing. Both sheets are run under the same
random setting, which must give the same report and listing, but for `at=` lines where there was an empty range. With --host every twentieth case
goes through the C host as well.
"""
import ctypes
import pathlib
import random
import re
import subprocess
import tempfile
import time
from collections import Counter

import check                            # puts tools/ on the path of modules
import moves
import random_sheets
import walker

SHEETS = 300                            # for each run of the walker
REFUSALS = range(1, 18)
CALLS = {"up": "vodlasim_move_up", "down": "vodlasim_move_down", "tidy": "vodlasim_tidy"}
ENOUGH = 1000000                        # output bytes that no listing here fills


# ---------------------------------------------------------------- the library

class Library:
    def __init__(self, archive, folder):
        library = check.load(archive, folder)
        self.run_call = check.call_of(library)
        self.calls = {way: getattr(library, name) for way, name in CALLS.items()}
        pointer, size = ctypes.c_void_p, ctypes.c_size_t
        for call in self.calls.values():
            call.argtypes, call.restype = [pointer, size, pointer, size, pointer, size, pointer], None

    def faults(self, rng, case, due):
        """What is wrong after one move."""
        lent = sheet, work, output, reported = check.lend(rng, case.sheet, case.words, case.output)
        self.calls[case.way](sheet.pointer(), sheet.size, work.pointer(), case.words, output.pointer(), output.size, reported.pointer())
        return check.changed(lent, [due.refused, due.place, 0, 0, 0, 0, 0, len(due.text)], due.text)

    def run(self, case):
        """The report of a run, and its listing."""
        work, output, report = (check.WORD * case.words)(), ctypes.create_string_buffer(case.output), (ctypes.c_uint64 * 8)()
        self.run_call(case.sheet, len(case.sheet), case.path, case.budget, case.skip, work, case.words, output, case.output, report)
        return list(report), output.raw[:report[7]]


def host_faults(host, folder, case, due):
    """What is wrong with what the host prints for a sheet and with its exit status."""
    file = pathlib.Path(folder) / "sheet"
    file.write_bytes(case.sheet)
    ran = subprocess.run([host, "--" + case.way, str(file)], stdout=subprocess.PIPE, stderr=subprocess.PIPE)
    told = b"%s: refused with %d at byte %d\n" % (str(file).encode(), due.refused, due.place) if due.refused else b""
    if (ran.returncode, ran.stdout, ran.stderr) != (1 if due.refused else 0, due.text, told):
        yield "the host: %s, due %r %r" % (ran, due.text, told)


# ---------------------------------------------------------------- the comparison

def compare_moves(library, rng, cases, counts):
    """What is due for the cases, which the library must do."""
    dues = moves.moved(cases)
    for case, due in zip(cases, dues):
        check.compare(case, list(library.faults(rng, case, due)))
        counts[case.way, due.refused] += 1
    return dues


def setting(rng, empty):
    """A random setting, and sizes of the lent memory; output enough where there was an empty range."""
    path, budget, skip = rng.choice((1, 5, 20, 512, 512, 0)), rng.choice((0, 1, 20, 300, 3000)), rng.choice((0, 0, 0, 1, 5))
    output = ENOUGH if empty else rng.choice((0, 30, 300, 4096, 20000))
    return path, budget, skip, output, walker.words_for(path) - (rng.random() < 0.02)


def without_places(ran):
    """A report without the bytes written, and a listing without its `at=` lines."""
    report, listing = ran
    return report[:7], re.sub(rb"^at=\d+\n", b"", listing, flags=re.M)


def compare_listings(library, rng, moved, counts):
    settings = [setting(rng, moves.has_empty(case.sheet)) for case, _ in moved]
    pages = walker.pages([walker.Case(case.sheet, *drawn) for (case, _), drawn in zip(moved, settings)], walker.EMPTY_RANGES)
    for (case, due), drawn, page in zip(moved, settings, pages):
        empty = moves.has_empty(case.sheet)
        there = library.run(walker.Case(due.text, *drawn))
        if empty and case.way == "tidy":            # refused now: what it gave before is the walker's to say
            told = walker.outcome(page)
            here = check.report(told), told.listing
        else:
            here = library.run(walker.Case(case.sheet, *drawn))
        if empty:
            there, here = without_places(there), without_places(here)
        check.compare(case, [] if there == here else ["under %s the moved sheet gives %s, due %s" % (drawn, there, here)])
        counts["listed", empty] += 1


def check_batch(library, rng, given, folder, counts):
    cases = [moves.drawn(rng) for _ in range(SHEETS)]
    dues = compare_moves(library, rng, cases, counts)
    moved = [(case, due) for case, due in zip(cases, dues) if not due.refused]
    followed = [moves.followed(case, due) for case, due in moved]
    after = [back for back, _ in followed]
    for (case, due), (back, same), returned in zip(moved, followed, compare_moves(library, rng, after, counts)):
        check.compare(case, [] if returned == same else ["%s, then %s %s" % (due, back.way, returned)])
        counts["followed", back.way] += 1
    compare_listings(library, rng, moved, counts)
    compare_moves(library, rng, [back._replace(sheet=random_sheets.damaged(rng, back.sheet)) for back in after], counts)
    if given.host:
        some = [case._replace(words=moves.WORDS, output=moves.LONGEST) for case in cases[::check.SHARE]]
        for case, due in zip(some, moves.moved(some)):
            check.compare(case, list(host_faults(given.host, folder, case, due)))
            counts["host"] += 1


def main():
    given = check.arguments("--host")
    rng, until, counts = random.Random(given.seed), time.monotonic() + given.seconds, Counter()
    with tempfile.TemporaryDirectory() as folder:
        library = Library(given.library, folder)
        while not counts or time.monotonic() < until:
            check_batch(library, rng, given, folder, counts)
    for way in moves.WAYS:
        refused = ", ".join("refused %d %d" % (number, counts[way, number]) for number in REFUSALS)
        print("%d sheets alike %s: moved %d, %s" % (sum(counts[way, number] for number in (0, *REFUSALS)), way, counts[way, 0], refused))
    print("%d moved there and back to the same bytes, %d passed again to the same" % (
        counts["followed", "up"] + counts["followed", "down"], counts["followed", "tidy"]))
    print("%d pairs listed alike, %d with empty ranges but for `at=`" % (counts["listed", False], counts["listed", True]))
    if counts["host"]:
        print("%d moves of the host alike" % counts["host"])


if __name__ == "__main__":
    main()
