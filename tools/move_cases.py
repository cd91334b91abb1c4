#!/usr/bin/env python3
"""The cases of the moves' test program (crates/move_cases): their list, and the files that hold them.

  tools/move_cases.py          writes crates/move_cases/stdin, the cases, and stdout, what the reference reading (moves.py) gives for them
  tools/move_cases.py --list   prints each case's number and name, and writes nothing

crates/move_cases/src/main.rt says how a case stands in stdin and what is printed for it. After each case that is moved comes its way back; after one
with an empty range, and after a pass, the pass over what was written, which changes nothing.
"""
import argparse
import random

import cases as runs
import moves
import walker
from cases import HIGH, LOW, conjunction

FILES = walker.ROOT / "crates" / "move_cases"
MOST = 393216                           # bytes of input that the program reads
RANDOM = 60                             # so many random cases, the last ones
FULL = moves.FULL.decode()
cases = []                              # name and case


# ---------------------------------------------------------------- how a case is written down

def case(name, way, sheet, words=moves.WORDS, output=moves.LONGEST):
    sheet = sheet if isinstance(sheet, bytes) else sheet.encode()
    cases.append((name, moves.Case(way, words, output, sheet)))


def packed(case):
    return b"%-4s %05d %05d %05d\n%s\n" % (case.way.encode(), case.words, case.output, len(case.sheet), case.sheet)


def printed(due):
    """What is due for a case."""
    if due.refused:
        return b"refused=%d\nat=%d\nkept\n" % (due.refused, due.place)
    return b"moved=%d\n%skept\n" % (len(due.text), due.text)


def lines(edition="2", scalars="1", arrays="", ranges=None, **values):
    """A sheet by the values of its lines; edition 3 has full ranges for all unless they are given."""
    if ranges is None and edition == "3":
        ranges = full(int(scalars) + len(arrays.split(",")) * (arrays != ""))
    return runs.lines(edition=edition, scalars=scalars, arrays=arrays, ranges=ranges, **values)


def full(count):
    return ",".join([FULL] * count)


def ups(text, **declared):
    """A case for each line of the text, a formula of an edition 2 sheet that is to be moved up."""
    for formula in text.strip("\n").split("\n"):
        case("up, " + formula, "up", lines(formula=formula, **declared))


def downs(text, **declared):
    """The same of an edition 3 sheet, down."""
    for formula in text.strip("\n").split("\n"):
        case("down, " + formula, "down", lines(edition="3", formula=formula, **declared))


def slips(text, **declared):
    """For each line of the text, a formula, a case for each way."""
    for formula in text.strip("\n").split("\n"):
        every(formula, formula=formula, **declared)


def every(name, ways=moves.WAYS, **declared):
    """A case for each of the ways: up with a sheet of edition 2, down and of the pass with one of the same values in edition 3."""
    for way in ways:
        case("%s, %s" % (name, way), way, lines(edition=moves.EDITIONS[way].decode(), **declared))


def both(name, **declared):
    """The same up and down."""
    every(name, ("up", "down"), **declared)


def padded(size, **declared):
    """A sheet of so many bytes, comparisons whose constants make up the size."""
    atoms = (size - len(lines(formula="", **declared))) // 18
    more, rest = divmod(size - len(lines(formula=conjunction(["le 1 1"] * atoms), **declared)), 2 * atoms)
    constants = ["1" * (1 + more + (k < rest)) for k in range(2 * atoms)]
    return lines(formula=conjunction(["le %s %s" % pair for pair in zip(constants[::2], constants[1::2])]), **declared)


# ---------------------------------------------------------------- lent memory, and lengths

def memory():
    slip = lines(edition="3", formula="some l0 8 1 true")
    for way, sheet in (("up", lines()), ("down", lines(edition="3")), ("tidy", slip), ("up", "x"), ("down", lines(edition="1"))):
        for words, output in ((6144, 4096), (6144, 4095), (6143, 4096), (6143, 4095), (0, 0), (6400, 4352)):
            case("%s, %d work words, %d output bytes: %s.." % (way, words, output, sheet.split("\n")[0]), way, sheet, words, output)


def lengths():
    for edition, way in (("2", "up"), ("3", "down"), ("3", "tidy"), ("1", "up"), ("1", "down")):
        case("4,097 bytes of edition %s, %s" % (edition, way), way, padded(4097, edition=edition))
    case("4,096 bytes down", "down", padded(4096, edition="3"))
    case("4,097 bytes and no sheet", "up", b"\0" * 4097)
    case("4,097 bytes and too few words", "up", padded(4097), words=6143)
    for scalars, arrays in (("0", ""), ("1", ""), ("64", ",".join(["1"] * 16))):
        ranges = len(lines(edition="3", scalars=scalars, arrays=arrays)) - len(lines(scalars=scalars, arrays=arrays))
        for size in (4095, 4096, 4097):
            name = "%s scalars, %d arrays: %d bytes of edition 3" % (scalars, len(arrays.split(",")) * (arrays != ""), size)
            case(name, "up", padded(size - ranges, scalars=scalars, arrays=arrays))
    case("4,096 bytes up", "up", padded(4096))
    case("too long once moved, with a fault of its own at the end", "up", padded(4000, scalars="64") + "x")


# ---------------------------------------------------------------- the sheet's own refusals

def editions():
    for way in moves.WAYS:
        for edition in ("1", "2", "3", "4", "0", "", "22", "-2", "02", "2-", "x"):
            case("edition=%s, %s" % (edition, way), way, lines(edition=edition))
        for edition in ("1x", "2x", "3x", "1", "2", "3", "1\n", "2\n", "3\n", "2 \n", "3\r\n"):
            case("edition=%r, %s" % (edition, way), way, "edition=" + edition)
        for start in ("", "e", "edition", "Edition=1\n", "scalars=1\n", " edition=1\n"):
            case("%r, %s" % (start, way), way, start)
        case("another edition, and then nothing in its form, %s" % way, way, "edition=%s\n\n\n" % (3 if way == "up" else 2))


def own():
    """Refusals 3 to 14 where each arises, in the editions that have it."""
    case("3, ranges in edition 2", "up", lines(ranges=FULL))
    case("3, no ranges in edition 3", "down", lines(edition="3").replace("ranges=%s\n" % FULL, ""))
    every("3, a seventeenth procedure", procedures=["0:true"] * 17)
    every("4, scalars", scalars="65")
    every("4, locals", locals="33")
    every("4, an array of none", arrays="0")
    every("4, a constant", formula="eq v0 00")
    every("4, parameters", procedures=["9:true"])
    every("5, no colon", given="v0=1")
    every("5, a token too many", formula="true true")
    every("6, no token", formula="and true ")
    every("6, no word", formula="eq v0 divx 1 1")
    every("7, a scalar", formula="eq v1 1")
    every("7, an element", arrays="2", given="a0.2:1")
    every("8, outside its binder", formula="and ex l0 true eq l0 1")
    every("8, bound again", procedures=["0:ex l0 true"], formula="ex l0 true")
    every("9, nesting 65", formula="not " * 64 + "true")
    both("9, 1,025 tokens", formula="not not " + conjunction(["eq 1 1"] * 256))
    every("10", scalars="2", given="v1:1,v0:1")
    every("11", procedures=["0:call 0"])
    every("12", procedures=["1:eq p1 1"])
    ups("eq v0 quo 1 2\neq v0 rem 1 2")
    case("4, a bound of a range", "down", lines(edition="3", ranges="0:2147483648"))
    case("5, a range too few", "down", lines(edition="3", scalars="2", ranges=FULL))
    case("13", "down", lines(edition="3", ranges="0:9", given="v0:10"))
    case("14", "down", lines(edition="3", ranges="9:0"))
    case("14 by one at the end of 32 bits", "down", lines(edition="3", ranges="%s:2147483646" % HIGH))
    case("a narrow range, and a fault after it", "down", lines(edition="3", ranges="0:9", given="v1:1"))
    case("a word that rounds down, and a fault after it", "down", lines(edition="3", formula="eq v0 div 1 x"))
    for way, edition in (("up", "2"), ("down", "3")):
        for size in range(0, len(lines(edition=edition)), 3):
            case("the first %d bytes, %s" % (size, way), way, lines(edition=edition)[:size])


# ---------------------------------------------------------------- the way back: 15 and 16

def narrow():
    for pair in ("0:9", "0:0", "%s:2147483646" % LOW, "-2147483647:%s" % HIGH, "%s:%s" % (LOW, LOW), "%s:%s" % (HIGH, HIGH)):
        case("one range, %s" % pair, "down", lines(edition="3", ranges=pair))
    for at in range(5):
        ranges = [FULL] * 5
        ranges[at] = "0:9"
        case("the range %d of three scalars and two arrays" % at, "down",
             lines(edition="3", scalars="3", arrays="2,3", ranges=",".join(ranges), given="v0:1,v2:9,a0.1:3,a1.0:0"))
    case("two of three narrow", "down", lines(edition="3", scalars="3", ranges="%s,1:2,3:4" % FULL))
    case("the last of 80", "down", lines(edition="3", scalars="64", arrays=",".join(["1"] * 16), ranges=full(79) + ",0:1"))


def rounding():
    downs("""
eq v0 div 1 2
eq v0 mod 1 2
eq v0 quo 1 div 4 2
and eq v0 rem 1 2 eq v0 mod 1 2
and eq v0 mod 1 2 eq v0 div 1 2
some l0 div 4 2 mod 5 3 true
lt a0 div 1 1 a0 mod 1 2
not not imp eq quo 1 2 rem 1 2 ex l0 eq l0 add 1 div 7 2
""", arrays="3")
    divides, calls = "1:eq p0 div p0 2", "1:call 0 rem p0 2"
    case("16 in a procedure's line", "down", lines(edition="3", procedures=[divides], formula="call 0 v0"))
    case("16 in the second procedure's line", "down", lines(edition="3", procedures=["1:eq quo p0 2 1", divides], formula="call 0 mod 1 2"))
    case("16 in the formula, after procedures", "down", lines(edition="3", procedures=["1:eq p0 1", calls], formula="call 1 mod 3 2"))
    case("16 in a procedure that nothing calls", "down", lines(edition="3", procedures=["0:lt mod 1 2 3"]))
    case("15 and 16", "down", lines(edition="3", ranges="0:9", formula="eq v0 div 1 2"))
    case("15 of an array and 16 in a procedure's line", "down",
         lines(edition="3", arrays="2", ranges=FULL + ",0:9", procedures=[divides], formula="call 0 mod 1 2"))


# ---------------------------------------------------------------- empty ranges

def empty():
    # equal bounds, bounds apart by one, both signs, the ends of 32 bits
    for low, high in ((8, 1), (1, 1), (2, 1), (1, 2), (0, 0), (0, -1), (-1, 0), (-1, -1), (-1, -2), (-2, -1), (10, 9), (9, 10), (HIGH, HIGH),
                      (HIGH, "2147483646"), ("2147483646", HIGH), (LOW, LOW), ("-2147483647", LOW), (LOW, "-2147483647"), (HIGH, LOW), (LOW, HIGH)):
        slips("some l0 %s %s eq v0 l0\nall l0 %s %s eq v0 l0" % (low, high, low, high))
    # a bound that is no constant
    slips("""
some l0 8 v0 true
all l0 v0 1 true
some l0 add 8 0 1 true
all l0 8 sub 1 0 true
some l0 a0 8 1 true
all l0 8 a0 1 true
some l0 quo 8 1 1 true
some l0 div 8 1 1 true
some l1 1 2 all l0 8 l1 true
""", arrays="2", locals="2")
    # where it stands, and what stands in it
    slips("""
and some l0 8 1 true all l1 8 1 true
and all l0 8 1 true eq v0 1
or eq v0 1 all l0 8 1 eq v0 2
not some l0 8 1 true
not not all l0 8 1 not true
imp some l0 8 1 true eq v0 1
imp eq v0 1 all l0 8 1 true
imp all l0 8 1 true some l1 8 1 true
ex l0 some l1 8 1 eq l0 l1
ex l0 and all l1 8 1 eq l0 l1 eq l0 1
some l0 8 1 some l1 8 1 true
some l0 8 1 all l1 1 8 true
all l0 8 1 and some l1 8 1 true all l2 8 1 true
all l0 1 8 some l1 8 1 true
some l0 1 8 and all l1 8 1 eq v0 l1 eq v0 l0
all l0 1 2 some l1 1 2 all l2 2 1 eq l0 l1
some l0 v0 1 all l1 8 1 true
some l0 8 1 all l1 v0 1 some l2 8 1 true
and or some l0 8 1 true all l1 8 1 true or some l2 8 1 true eq v0 1
or some l0 8 1 eq v0 l0 or some l1 1 8 eq v0 l1 all l2 8 1 lt v0 1
and eq v0 1 and eq v0 1 some l0 8 1 true
and some l0 8 1 eq a0 a0 a0 0 add 1 mul 2 sub 3 v0 eq v0 7
and all l0 8 1 imp not ex l1 or lt l1 a0 l0 le l1 -8 some l2 1 2 and ne l2 0 or gt 1 l0 ge a0 1 2 eq v0 7
and some l0 8 1 ex l1 and eq l1 1 ex l2 true ex l3 eq l3 1
""", arrays="2", locals="4")
    case("divisions in it and beside it, up", "up", lines(formula="and some l0 8 1 eq div 1 2 mod l0 4 eq div 5 6 mod 7 8"))
    for words in (("div", "mod"), ("quo", "rem")):
        formula = "and some l0 8 1 eq %s 1 2 %s l0 4 eq %s 5 6 %s 7 8" % (*words, *words)
        case(formula + ", tidy", "tidy", lines(edition="3", formula=formula))
    case("narrow ranges, and given values in them", "tidy", lines(edition="3", scalars="2", arrays="2", ranges="0:9,1:1,-3:3",
                                                                  given="v0:9,v1:1,a0.1:-3", formula="or all l0 1 0 true eq v0 mod -1 2"))


def empty_called():
    declared = dict(locals="3", scalars="2")
    every("parameters are no constants", procedures=["2:some l0 p0 p1 true"], formula="call 0 8 1", **declared)
    every("nor is one of two", procedures=["1:some l0 8 p0 true", "1:all l1 p0 1 true"], formula="and call 0 1 call 1 8", **declared)
    every("in a procedure", procedures=["1:some l0 8 1 eq p0 l0"], formula="call 0 v0", **declared)
    every("as a whole procedure, in its midst and at its end", formula="and call 0 and call 1 v0 call 2", **declared,
          procedures=["0:all l0 8 1 true", "1:or eq p0 1 or some l1 2 1 eq p0 l1 eq p0 2", "0:and true all l2 2 1 eq v0 1"])
    every("in a procedure and in the formula", procedures=["1:all l0 8 1 eq p0 l0"], formula="and call 0 v0 some l1 8 1 call 0 l1", **declared)
    every("a call in it, with eight terms", procedures=["8:eq p7 add p0 p6"], formula="or some l0 8 1 call 0 1 2 add 3 4 4 5 v1 7 l0 eq v0 1",
          **declared)
    every("calls in it", procedures=["0:true", "1:call 0", "2:all l0 8 1 and call 1 p0 call 0"],
          formula="and all l1 8 1 and call 2 1 call 0 call 1 l1 eq v0 1", **declared)
    every("in a body that stays, in a procedure", procedures=["1:some l0 1 p0 all l1 8 1 eq l0 p0"], formula="call 0 2", **declared)
    every("in each of sixteen procedures", locals="17", procedures=["0:%s l%d 8 1 true" % (("some", "all")[n % 2], n) for n in range(16)],
          formula="or call 0 all l16 1 0 call 15")


def empty_and_others():
    """17 is the sheet's own on the way down: after its upper bound's 9 and 4, before the byte after it; the pass meets what stands behind."""
    slips("""
some l0 8 1
some l0 8 1 
some l0 8 1  true
some l0 8 1, true
some l0 8 1x true
all l0 8 01 true
all l0 8 -0 true
all l0 8 2147483648 true
some l0 2147483648 1 true
some l0 8 
some l0 8
some l0 8 1 x
some l0 8 1 1
some l0 8 1 eq v9 1
some l0 8 1 ex l0 true
some l0 8 1 eq l1 1
some l0 8 1 call 0
some l0 8 1 eq p0 1
some l0 8 1 true true
some l0 8 v9 true
some l0 8 l0 true
some l9 8 1 true
some v0 8 1 true
and x some l0 8 1 true
and some l0 8 1 true x
and some l0 8 1 true ex l0 true
and some l0 8 1 true eq l0 1
and all l0 1 8 true some l1 8 1 x
""", locals="2")
    long = conjunction(["eq 1 1"] * 255)
    every("the upper bound is token 1,024", ("down", "tidy"), formula="and %s some l0 8 1 true" % long)
    every("the upper bound is token 1,025", ("down",), formula="not and %s some l0 8 1 true" % long)
    every("the last of 1,024 tokens in its body", ("tidy",), formula="and %s and true not all l0 8 1 true" % conjunction(["eq 1 1"] * 254))
    every("bounds at nesting 64", formula="not " * 62 + "some l0 8 1 true")
    every("bounds at nesting 65", formula="not " * 63 + "some l0 8 1 true")
    every("17 in the second of two procedures", locals="3", procedures=["0:some l0 1 8 true", "0:some l1 8 1 true"], formula="some l2 8 1 true")
    every("11, before it", procedures=["0:call 0"], formula="some l0 8 1 true")
    every("12, before it", procedures=["1:some l0 8 p1 true"])
    every("10, before it", scalars="2", given="v1:1,v0:1", formula="some l0 8 1 true")
    slip = "all l0 8 1 eq v0 mod 1 2"
    for way in ("down", "tidy"):
        case("17 and 15, " + way, way, lines(edition="3", ranges="0:9", formula="some l0 8 1 true"))
        case("17 and 16 in it, " + way, way, lines(edition="3", formula=slip))
        case("16, and 17 after it, " + way, way, lines(edition="3", formula="and eq v0 div 1 2 some l0 8 1 true"))
        case("15, 16 and 17, " + way, way, lines(edition="3", ranges="0:9", procedures=["0:eq v0 div 1 2"], formula=slip))
        case("13, before it, " + way, way, lines(edition="3", ranges="0:9", given="v0:10", formula=slip))
        case("14, before it, " + way, way, lines(edition="3", ranges="9:0", formula=slip))
        whole = lines(edition="3", scalars="0", formula="some l0 28 12 true")
        for size in range(whole.index("28"), len(whole)):
            case("the first %d bytes of one with an empty range, %s" % (size, way), way, whole[:size])
        case("a line after one with an empty range, " + way, way, whole + "proc=0:true\n")


def empty_at_limit():
    """The moved sheet is measured as it is written."""
    def sheet(size, slip, written, **declared):
        """A sheet with a slip that has so many bytes with `written` for it."""
        return padded(size - len("and %s " % written), **declared).replace("formula=", "formula=and %s " % slip)
    short, long = "some l0 8 1 true", "all l0 8 1 " + conjunction(["eq 1234567890 1234567890"] * 60)
    ranges = len(lines(edition="3")) - len(lines())
    for size in (4095, 4096, 4097):
        case("%d bytes of edition 3 with `eq 0 1`" % size, "up", sheet(size - ranges, short, "eq 0 1"))
    most = dict(scalars="64", arrays=",".join(["1"] * 16))
    ranges = len(lines(edition="3", **most)) - len(lines(**most))
    for size in (4096, 4097):
        case("80 ranges, %d bytes of edition 3 with `true`" % size, "up", sheet(size - ranges, long, "true", **most))
    case("4,096 bytes with a long body, up", "up", sheet(4096, long, long))
    case("4,096 bytes with a long body, tidy", "tidy", sheet(4096, long, long, edition="3"))
    case("4,097 bytes with an empty range, tidy", "tidy", sheet(4097, short, short, edition="3"))
    case("too long with its ranges, and a fault behind an empty range", "up", sheet(4000, short, short, scalars="64")[:-1] + " \n")


# ---------------------------------------------------------------- sheets that are moved

def cells():
    for scalars, arrays in ((0, 0), (1, 0), (0, 1), (64, 0), (0, 16), (64, 16), (9, 3)):
        declared = dict(scalars=str(scalars), arrays=",".join(str(1 + n % 3) for n in range(arrays)))
        both("%d scalars and %d arrays" % (scalars, arrays), **declared)
    both("given values on all kinds of cells", scalars="3", arrays="2,1", given="v0:0,v2:-5,a0.0:%s,a0.1:7,a1.0:%s" % (LOW, HIGH))
    both("512 cells", scalars="0", arrays="512", given="a0.0:1,a0.511:2")
    both("every cell given", scalars="3", arrays="2,2", given="v0:1,v1:-1,v2:0,a0.0:10,a0.1:%s,a1.0:%s,a1.1:-9" % (LOW, HIGH))
    both("no locals", locals="0")
    both("32 locals", locals="32", formula=" ".join("ex l%d" % n for n in range(32)) + " true")


def words():
    words = ("eq", "ne", "lt", "le", "gt", "ge")
    both("every comparison", formula=conjunction(["%s v0 %d" % (word, n) for n, word in enumerate(words)]))
    both("1,024 tokens", formula="not " + conjunction(["eq 1 1"] * 256))
    both("every connective", formula="and or true imp true not true or true eq v0 add sub mul 1 2 3 4")
    both("every quantifier", locals="3", formula="ex l0 some l1 1 2 all l2 l1 3 eq l0 add l1 l2")
    both("constants", formula=conjunction(["eq v0 %s" % n for n in (0, 9, -1, LOW, HIGH)]))
    both("elements of elements", arrays="2,2", formula="eq a0 a1 a0 0 a1 a0 1")
    ups("""
eq v0 div 1 2
eq v0 mod 1 2
eq div 1 2 mod 3 4
eq div div 1 2 div 3 4 mod mod 5 6 mod 7 8
some l0 div 4 2 mod 5 3 lt l0 div l0 2
lt a0 div 1 1 a0 mod 1 2
and eq v0 div -7 2 not eq v0 mod -7 2
""", arrays="3")
    downs("""
eq quo 1 2 rem 3 4
eq quo quo 1 2 quo 3 4 rem rem 5 6 rem 7 8
all l0 quo 4 2 rem 5 3 lt l0 a0 quo l0 2
""", arrays="3")


def procedures():
    case("procedures with div and mod", "up", lines(scalars="2", procedures=["2:eq p0 div p1 2", "1:call 0 mod p0 3 div p0 2", "0:true"],
                                                    formula="and call 0 v0 mod 7 3 and call 1 v1 call 2"))
    case("procedures with quo and rem", "down", lines(edition="3", procedures=["1:eq p0 quo 7 2", "1:call 0 rem p0 3"], formula="call 1 v0"))
    every("sixteen procedures", procedures=["1:eq p0 1"] + ["1:call %d p0" % n for n in range(15)], formula="call 15 v0")
    every("eight parameters", procedures=["8:eq p7 add p0 p6"], formula="call 0 1 2 3 4 5 6 7 v0")
    every("calls in calls' formulas", locals="2", procedures=["1:ex l0 eq l0 p0", "2:imp call 0 p1 all l1 p0 p1 call 0 l1"], formula="not call 1 1 2")


def taught():
    for file in sorted((walker.ROOT / "sheets").glob("*.sheet")):
        sheet = file.read_bytes()
        for way, edition in moves.EDITIONS.items():
            if sheet.startswith(b"edition=%s\n" % edition):
                case("sheets/%s, %s" % (file.name, way), way, sheet)


def drawn():
    """Random and damaged sheets."""
    rng = random.Random(8)
    for number in range(RANDOM):
        cases.append(("random %d" % (number + 1), moves.drawn(rng)))


# ---------------------------------------------------------------- the files

def with_followers():
    """Each case with what is due for it, and after one that is moved the one that follows it."""
    listed = []
    for (name, there), due in zip(cases, moves.moved([there for _, there in cases])):
        listed.append((name, there, due))
        if not due.refused:
            after, same = moves.followed(there, due)
            listed.append((name + (", and tidied again" if after.way == "tidy" else ", and back"), after, same))
    return listed


def main():
    parser = argparse.ArgumentParser()
    parser.add_argument("--list", action="store_true")
    given = parser.parse_args()
    for group in (memory, lengths, editions, own, narrow, rounding, empty, empty_called, empty_and_others, empty_at_limit, cells, words,
                  procedures, taught, drawn):
        group()
    listed = with_followers()
    if given.list:
        for number, (name, _, due) in enumerate(listed, 1):
            print("%4d %s: %s" % (number, repr(name)[1:-1], "refused %d at %d" % due[:2] if due.refused else "moved"))
        return
    stdin = b"".join(packed(one) for _, one, _ in listed)
    if len(stdin) > MOST:
        raise SystemExit("the cases are %d bytes, the program reads %d" % (len(stdin), MOST))
    (FILES / "stdin").write_bytes(stdin)
    (FILES / "stdout").write_bytes(b"".join(printed(due) for _, _, due in listed))


if __name__ == "__main__":
    main()
