"""The reference reading of document 01 and of what landed of document 02: the walker of bench/rust, which cargo builds when it is first
asked.

A case is a sheet, a setting and the sizes of the lent memory; crates/cases/src/main.rt says how cases stand in a file.
"""
import pathlib
import re
import subprocess
from collections import namedtuple

ROOT = pathlib.Path(__file__).resolve().parent.parent
COMMAND = ["cargo", "run", "--quiet", "--release", "--offline", "--manifest-path", str(ROOT / "bench/rust/Cargo.toml"), "--", "cases", "-"]
EMPTY_RANGES = "--empty-ranges"
Case = namedtuple("Case", "sheet path budget skip output words")
Outcome = namedtuple("Outcome", "refused place end nodes answers errors fails listing")


def words_for(path):
    """The work words that a path limit asks for; one above the most asks for no more."""
    return 6144 + 12 * min(path, 32768)


def packed(cases):
    """The file that holds the cases."""
    return b"".join(b"case %d %d %d %d %d %d\n%s\n" % (*case[1:], len(case.sheet), case.sheet) for case in cases)


def unpacked(data):
    """The cases that stand in a file."""
    cases, at = [], 0
    while at < len(data):
        head = re.compile(rb"case (\d+) (\d+) (\d+) (\d+) (\d+) (\d+)\n").match(data, at)
        *setting, size = map(int, head.groups())
        cases.append(Case(data[head.end():head.end() + size], *setting))
        at = head.end() + size + 1
    return cases


def printed(cases, *options):
    """What the test program of crates/cases is due to print."""
    return subprocess.run([*COMMAND, *options], input=packed(cases), stdout=subprocess.PIPE, check=True).stdout


def pages(cases, *options):
    """What the box is due to print for each case; with EMPTY_RANGES, as before edition 3 refused an empty range of constants."""
    return re.split(rb"^case \d+\n", printed(cases, *options), flags=re.M)[1:]


def outcome(page):
    """What a page says. A refused run has zero tallies and no listing, a run that is not refused has the number and place 0."""
    refusal = re.fullmatch(rb"refused=(\d+)\nat=(\d+)\n", page)
    if refusal:
        return Outcome(int(refusal[1]), int(refusal[2]), None, 0, 0, 0, 0, b"")
    ran = re.fullmatch(rb"(.*?)end=(\w+)\nnodes=(\d+)\nanswers=(\d+)\nerrors=(\d+)\nfails=(\d+)\n", page, re.S)
    return Outcome(0, 0, ran[2].decode(), *map(int, ran.groups()[2:]), ran[1])
