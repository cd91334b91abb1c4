#!/usr/bin/env python3
"""Tries the law of parts and the law of budgets on the library, with random sheets (tools/random_sheets.py) under random limits.

  hosts/check_parts.py [--seconds 60] [--seed 1] [--library FILE]

A sheet is run in parts, each with an output of its own, drawn until it has room for the next block; joined, they must be what one run writes with
skip 0 and just enough output, more of it too, and that run must end as the last part did. With one byte less that run must end `output`. A
part that ends `output` must have counted as many blocks as it skipped and wrote. Then a larger budget must write no less than a smaller one.
"""
import argparse
import ctypes
import pathlib
import random
import re
import sys
import tempfile
import time
from collections import Counter, namedtuple

import check                            # puts tools/ on the path of modules
import random_sheets
import walker

Run = namedtuple("Run", "refused place end nodes answers errors fails listing")
HEAD = re.compile(rb"^(?:answer|error)=", re.M)


class Library:
    def __init__(self, archive, folder):
        self.call = check.call_of(check.load(archive, folder))

    def run(self, case):
        work, output = (check.WORD * case.words)(), ctypes.create_string_buffer(case.output)
        report = (ctypes.c_uint64 * 8)()
        self.call(case.sheet, len(case.sheet), case.path, case.budget, case.skip, work, case.words, output, case.output, report)
        *told, written = report
        return Run(*told[:2], check.ENDS[told[2]], *told[3:], output.raw[:written])


def blocks(listing):
    return len(HEAD.findall(listing))


def in_parts(library, rng, case, seen):
    """The parts' joined bytes and the last run; nothing of a sheet that is refused."""
    joined, skip = b"", 0
    while True:
        size = rng.choice((30, 60, 100, 200, 1000, 4096))
        part = library.run(case._replace(skip=skip, output=size))
        while part.end == "output" and not part.listing:
            size = 2 * size
            part = library.run(case._replace(skip=skip, output=size))
            seen["larger output"] += 1
        assert len(part.listing) <= size
        joined += part.listing
        seen["part"] += 1
        if part.refused or part.end != "output":
            return joined, part
        assert part.answers + part.errors == skip + blocks(part.listing) <= case.budget
        skip = part.answers + part.errors


def try_parts(library, rng, case, seen):
    joined, last = in_parts(library, rng, case, seen)
    for more in (0, 1, 5000):
        whole = library.run(case._replace(skip=0, output=len(joined) + more))
        assert whole == last._replace(listing=joined), (whole, last, joined)
    if joined:
        assert library.run(case._replace(skip=0, output=len(joined) - 1)).end == "output"
    seen["refused" if last.refused else last.end] += 1
    return joined, last


def try_budgets(library, rng, case, seen, joined, last):
    """A smaller budget beside the case's own, at some skip."""
    if last.refused:
        return
    less = rng.choice((0, 1, rng.randint(0, case.budget), max(0, last.nodes - 1), last.nodes))
    skip = rng.choice((0, 0, 1, rng.randint(0, last.answers + last.errors + 1)))
    size = rng.choice((rng.randint(0, len(joined) + 1), len(joined)))
    small, large = (library.run(case._replace(budget=budget, skip=skip, output=size)) for budget in (min(less, case.budget), case.budget))
    assert large.listing.startswith(small.listing), (small, large)
    assert all(a <= b for a, b in zip(small[3:7], large[3:7])), (small, large)
    assert small.end == "spent" or small == large
    seen["budgets"] += 1


def main():
    parser = argparse.ArgumentParser()
    parser.add_argument("--seconds", type=float, default=60)
    parser.add_argument("--seed", type=int, default=1)
    parser.add_argument("--library", default=str(walker.ROOT / "crates/vodlasim_c/out/libvodlasim_c.a"))
    given = parser.parse_args()
    rng, until, seen = random.Random(given.seed), time.monotonic() + given.seconds, Counter()
    with tempfile.TemporaryDirectory() as folder:
        library = Library(given.library, folder)
        while time.monotonic() < until:
            path = rng.choice((rng.randint(1, 40), 512, 512))
            case = walker.Case(random_sheets.drawn(rng), path, rng.choice((0, 5, 50, 1000, 5000)), 0, 0, walker.words_for(path))
            try:
                joined, last = try_parts(library, rng, case, seen)
                try_budgets(library, rng, case, seen, joined, last)
            except AssertionError as wrong:
                sys.exit("DIFFER\n%s\n%s" % (case, wrong))
    print(", ".join("%s %d" % count for count in sorted(seen.items())))


if __name__ == "__main__":
    main()
