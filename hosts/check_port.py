#!/usr/bin/env python3
"""Compares the library's plotter port with the reference reading (tools/port.py): one long random history, many short ones from random
registers, and each single action from every status and control.

  hosts/check_port.py [--actions 100000] [--short 2000] [--seed 1] [--library FILE]

The library is crates/vodlasim_c/out/libvodlasim_c.a, called in this process as hosts/check.py calls it. The registers and the listing are lent
between guard bytes. Looked at after each action: the four registers, how many bytes the step says it sent, that the listing is what it was,
and all guards. After each history: the bytes sent are a beginning of the listing, and the sum register is what they add up to.
"""
import argparse
import ctypes
import pathlib
import random
import sys
import tempfile
from collections import Counter

import check
import port

EVENTS = {"r": "ready_again", "o": "out_of_paper", "i": "paper_in", "+": "interrupts_on", "-": "interrupts_off"}
SHORT = 100                             # actions of a short history
SHARE = 20                              # the long one has a byte of listing for so many actions


class Calls:
    """The library's calls, by their letters."""

    def __init__(self, library):
        self.step = library.vodlasim_step
        self.step.argtypes, self.step.restype = [ctypes.c_void_p, ctypes.c_void_p, ctypes.c_size_t], ctypes.c_size_t
        self.events = {letter: getattr(library, "vodlasim_" + name) for letter, name in EVENTS.items()}
        for event in self.events.values():
            event.argtypes, event.restype = [ctypes.c_void_p], None

    def action(self, letter, registers, listing, sent):
        """How many bytes went out, of the listing's from `sent` on."""
        if letter == "s":
            unsent = ctypes.c_void_p(listing.pointer().value + sent)
            return self.step(registers.pointer(), unsent, listing.size - sent)
        self.events[letter](registers.pointer())
        return 0


def differ(registers, listing, script, at, got, due):
    sys.exit("DIFFER\nregisters %s\nlisting %r\nscript %s\nat action %d: %s, due %s" % (registers.hex(" "), listing, script, at, got, due))


def play(calls, rng, first, text, script, seen):
    """Plays a script by the library and by the reference; the number of bytes sent."""
    registers, listing, plotter, sent = check.Lent(rng, 4, first), check.Lent(rng, len(text), text), port.Port(first, text), 0
    for at, letter in enumerate(script):
        count = calls.action(letter, registers, listing, sent)
        due = plotter.action(letter)
        got = (registers.after(), count, listing.after() == text, registers.guarded() and listing.guarded())
        if got != (plotter.registers(), len(due), True, True):
            differ(first, text, script, at, got, (plotter.registers(), len(due), True, True))
        sent += count
        seen[letter] += 1
    if text[sent:] != plotter.unsent or registers.after()[3] != (first[3] + sum(text[:sent])) % 256:
        differ(first, text, script, len(script), sent, len(text) - len(plotter.unsent))
    return sent


def main():
    parser = argparse.ArgumentParser()
    parser.add_argument("--actions", type=int, default=100000)
    parser.add_argument("--short", type=int, default=2000)
    parser.add_argument("--seed", type=int, default=1)
    parser.add_argument("--library", default=str(check.walker.ROOT / "crates/vodlasim_c/out/libvodlasim_c.a"))
    given = parser.parse_args()
    if not pathlib.Path(given.library).exists():
        parser.error("no library at %s: `rt lib` in crates/vodlasim_c makes it" % given.library)
    rng, seen = random.Random(given.seed), Counter()
    with tempfile.TemporaryDirectory() as folder:
        calls = Calls(check.load(given.library, folder))
        text = rng.randbytes(given.actions // SHARE)
        sent = play(calls, rng, rng.randbytes(4), text, port.drawn(rng, given.actions), seen)
        print("a history of %d actions alike, %d of %d bytes sent" % (given.actions, sent, len(text)))
        whole = 0
        for _ in range(given.short):
            text = rng.randbytes(rng.choice((0, 1, 2, 5, 10, 30, 300)))
            whole += len(text) == play(calls, rng, rng.randbytes(4), text, port.drawn(rng, SHORT), seen)
        print("%d histories of %d actions alike, %d of them sent a whole listing" % (given.short, SHORT, whole))
        print(", ".join("%s %d" % action for action in sorted(seen.items())))
        for state in range(0x10000):
            first = state.to_bytes(2, "little") + rng.randbytes(2)
            play(calls, rng, first, b"", "s", seen)
            for letter in port.ACTIONS:
                play(calls, rng, first, rng.randbytes(1), letter, seen)
        print("each action alike from every status and control")


if __name__ == "__main__":
    main()
