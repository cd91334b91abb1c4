#!/usr/bin/env python3
"""The cases of the port's test program (crates/port_cases): their list, and the files that hold them.

  tools/port_cases.py          writes crates/port_cases/stdin, the cases, and stdout, what the reference reading (port.py) prints for them
  tools/port_cases.py --list   prints each case's number and name, and writes nothing

crates/port_cases/src/main.rt says how a case stands in stdin and what is printed for it.
"""
import argparse
import pathlib
import random

import port

ROOT = pathlib.Path(__file__).resolve().parent.parent
FILES = ROOT / "crates" / "port_cases"
MOST = 32768                            # bytes of input that the program reads
READY, PAPER_OUT, PENDING, ON = 1, 2, 4, 1
cases = []                              # name, registers, listing, script


# ---------------------------------------------------------------- how a case is written down

def case(name, script, listing=b"answer=1\nv0=7\n", status=0, control=0, data=0, sum=0):
    cases.append((name, (status, control, data, sum), listing, script))


def packed(registers, listing, script):
    return b"%02x %02x %02x %02x %04x\n%s\n%s\n" % (*registers, len(listing), listing, script.encode())


def line(letter, plotter, sent):
    return "%s %s %d\n" % (letter, plotter.registers().hex(" "), len(sent))


def printed(registers, listing, script):
    """What is due for a case."""
    plotter = port.Port(registers, listing)
    lines = [line("=", plotter, b"")]
    for letter in script:
        sent = plotter.action(letter)
        lines.append(line(letter, plotter, sent))
    return "".join(lines) + "left %04x\n" % len(plotter.unsent)


# ---------------------------------------------------------------- the cases

def plots():
    """Listings that go out, or do not."""
    case("a listing to its end", "rs" * 14)
    case("as many steps that find ready as there are bytes, the first of them ready before", "s" + "rs" * 13, status=READY)
    case("one fewer", "rs" * 13)
    case("ready never set", "s" * 20)
    case("paper out in the middle", "rs" * 5 + "ros" + "s" * 3 + "rs" * 3 + "is" + "rs" * 9)
    case("paper out before the first byte and in after many steps", "o" + "rs" * 20 + "i" + "rs" * 3, status=READY)
    case("a byte for each ready, however many steps", "rsss" * 3 + "rrrs" * 3)
    case("an empty listing", "rs" * 3 + "+rs" * 2 + "oris", listing=b"")
    case("one byte", "srss", listing=b"\xff")
    case("300 bytes, the sum wraps", "rs" * 301, listing=bytes(k % 256 for k in range(300)))
    case("bytes of 255 from a sum of 255", "rs" * 4, listing=b"\xff" * 4, sum=255)
    case("bytes of 0", "rs" * 4, listing=b"\0" * 4, data=9, sum=200)
    case("the listing of a sheet", "rs" * 200, listing=(ROOT / "sheets/paper.expected").read_bytes().split(b"end=")[0])


def interrupts():
    """Pending, and what lets it through."""
    case("control off: ready sets no pending", "rs" * 3)
    case("control on: it does, and each step clears it", "+" + "rs" * 3)
    case("control off and on", "rs+rs-rs+r-ss-r+ss")
    case("control on after ready: no pending for it", "r+s")
    case("control off after ready: pending stays to the next step", "+r-s")
    case("ready when it is set: pending again", "+rrsrsrr", status=READY)
    case("ready when it is set, control off: nothing", "rrs", status=READY)
    case("a step that sends nothing clears pending: ready is clear", "ss", status=PENDING)
    case("paper is out", "ss", status=PENDING | PAPER_OUT | READY)
    case("nothing is left", "ss", listing=b"", status=PENDING | READY)
    case("events that change nothing", "ooiiii++----s", status=READY)


def bits():
    """Bits without a name, and registers of every kind."""
    everything = "s+rsrsors-rsis+ros-irs"
    for k in range(32):
        case("bits without a name in status: %02x" % (8 * k), everything, status=8 * k, control=255 - 8 * k)
    for k in range(8):
        case("the bits with a name: %d" % k, "s", status=k)
        case("bit %d of status alone" % k, everything, status=2**k)
        case("bit %d of control alone" % k, everything, control=2**k)
    case("all bits set", everything, status=255, control=255, data=255, sum=255)


def histories():
    rng = random.Random(4)
    for k in range(12):
        listing = rng.randbytes(rng.choice((0, 1, 5, 40, 80)))
        case("random history %d" % k, port.drawn(rng, 80), listing, *rng.randbytes(4))


# ---------------------------------------------------------------- the files

def main():
    parser = argparse.ArgumentParser()
    parser.add_argument("--list", action="store_true")
    given = parser.parse_args()
    for part in (plots, interrupts, bits, histories):
        part()
    if given.list:
        for number, (name, *_) in enumerate(cases, 1):
            print("%4d %s" % (number, name))
        return
    stdin = b"".join(packed(*rest) for _, *rest in cases)
    if len(stdin) > MOST:
        raise SystemExit("the cases are %d bytes, the program reads %d" % (len(stdin), MOST))
    (FILES / "stdin").write_bytes(stdin)
    (FILES / "stdout").write_text("".join(printed(*rest) for _, *rest in cases))


if __name__ == "__main__":
    main()
