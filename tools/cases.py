#!/usr/bin/env python3
"""The cases of the test program (crates/cases): their list, and the files that hold them.

  tools/cases.py               writes crates/cases/stdin, the cases, and stdout, what the reference reading (walker.py) prints for them
  tools/cases.py --random      draws the random cases anew; else those that stand in stdin are kept
  tools/cases.py --list        prints each case's number and name, and writes nothing

crates/cases/src/main.rt says how a case stands in stdin.
"""
import argparse
import random
import re

import random_sheets
import walker

FILES = walker.ROOT / "crates" / "cases"
MOST = 655360                           # bytes of input that the program reads
RANDOM = {1: 150, 2: 90, 3: 90}              # so many random cases of each edition, the last ones
cases = []                              # name and case


# ---------------------------------------------------------------- how a case is written down

def case(name, sheet, path=512, budget=1000000, skip=0, output=4096, words=None):
    if words is None:
        words = walker.words_for(path)
    sheet = sheet if isinstance(sheet, bytes) else sheet.encode()
    cases.append((name, walker.Case(sheet, path, budget, skip, output, words)))


def lines(edition="1", scalars="1", locals="1", arrays="", ranges=None, given="", procedures=(), formula="true"):
    """A sheet by the values of its lines, with one of ranges unless they are None."""
    rows = ["edition=" + edition, "scalars=" + scalars, "locals=" + locals, "arrays=" + arrays]
    rows += [] if ranges is None else ["ranges=" + ranges]
    rows += ["given=" + given, *("proc=" + value for value in procedures), "formula=" + formula]
    return "".join(row + "\n" for row in rows)


def formulas(text, setting={}, **declared):
    """A case for each line of the text, a formula."""
    for formula in text.strip("\n").split("\n"):
        case(formula, lines(formula=formula, **declared), **setting)


def libraries(text, setting={}, edition="2", **declared):
    """A case for each paragraph of the text, a sheet with procedures: the values of its proc lines, then its formula."""
    for paragraph in text.strip("\n").split("\n\n"):
        *procedures, formula = paragraph.split("\n")
        sheet = lines(edition=edition, procedures=procedures, formula=formula, **declared)
        case("; ".join(procedures + [formula]), sheet, **setting)


def givens(text, **declared):
    """A case for each line of the text, the value of the given line."""
    for given in text.strip("\n").split("\n"):
        case("given=" + given, lines(given=given, **declared))


def ones(n):
    """A sum of 2^n ones: 2^(n+1) - 1 tokens."""
    return "1" if n == 0 else "add %s %s" % (ones(n - 1), ones(n - 1))


def conjunction(atoms):
    """As flat as it can be, so that it does not nest deep."""
    half = len(atoms) // 2
    return atoms[0] if half == 0 else "and %s %s" % (conjunction(atoms[:half]), conjunction(atoms[half:]))


def padded(size):
    """An accepted sheet of so many bytes, 250 comparisons whose constants make up the size; it has one answer."""
    short = lines(formula=conjunction(["le 1 1"] * 250))
    more, rest = divmod(size - len(short), 250)
    return lines(formula=conjunction(["le 1 " + "1" * (1 + more + (k < rest)) for k in range(250)]))


FORMULA_11 = lines(scalars="2", locals="0", formula="and and or eq v0 2 eq v0 3 or eq v1 add v0 1 eq 2 v1 eq mul 2 v0 mul 3 v1")
LOW, HIGH = "-2147483648", "2147483647"


# ---------------------------------------------------------------- the marked cases of document 01

def marked():
    case("formula (1.1)", FORMULA_11)
    case("formula (1.1), budget 19", FORMULA_11, budget=19)
    case("formula (1.1), path limit 8", FORMULA_11, path=8)
    case("formula (1.1), budget 20, path limit 9", FORMULA_11, path=9, budget=20)
    formulas("""
true
and eq v0 0 lt v0 1
and lt v0 1 eq v0 0
or eq v0 div 1 0 eq v0 3
not eq v0 0
not or eq 1 1 eq 1 div 1 0
not or eq 1 2 eq 1 div 1 0
all l0 1 0 eq 1 2
some l0 1 0 true
eq v0 div -7 2
eq v0 mod -7 2
eq v0 add 2147483647 1
eq v0 2147483648
""")
    formulas("all l0 0 2 eq a0 l0 mul l0 l0", arrays="3")


# ---------------------------------------------------------------- the readings (docs/DECISIONS.md)

def readings():
    formulas("""
2147483648
ex 00 true
eq v00 1
and true
and true 
true x
ex v0 true
ex l1 true
ex l0 ex l0 true
some l0 l0 3 true
some l0 1 l0 true
eq l1 1
eq a0
eq v99999999999999999999 1
all l0 0 0 true
not or true eq v0 1
not all l0 v0 0 true
not eq a0 v0 1
some l0 v0 3 true
some l0 1 v0 true
all l0 v0 3 true
eq v0 mod -2147483648 -1
eq v0 div -2147483648 -1
some l0 2147483646 2147483647 eq v0 l0
all l0 1 2 ex l1 true
""")
    givens("""
v00:1
5
v:1
v1:2147483648
v1:1;
v0:1,v1:1
""")
    formulas("""
eq a0 v0 div 1 0
eq a0 0 div 1 0
eq a0 1 v0
eq div 1 0 a0 v0
eq v0 a0 1
not imp true eq a0 0 1
not not eq a0 0 1
not all l0 0 0 eq a0 l0 1
imp not true eq a0 0 1
imp true eq a0 0 1
""", arrays="1")
    givens("a0.1:1,a0.0:2;\na0.1:1,a0.1:2\na0.0:1,v0:1\nv0:1,a0.0:1,a0.1:2", arrays="2")
    case("the seventeenth array", lines(arrays=",".join("1" * 17)))
    case("scalars=3-", "edition=1\nscalars=3-\n")
    case("edition=4x", "edition=4x")
    case("arrays=1,", lines(arrays="1,"))
    case("ex under all", lines(scalars="0", locals="2", formula="all l0 1 2 ex l1 eq l1 l0"))
    case("all 32-bit values", lines(formula="some l0 %s %s eq v0 l0" % (LOW, HIGH)), budget=7)
    case("all of all 32-bit values", lines(formula="all l0 %s %s ne l0 3" % (LOW, HIGH)), budget=9)
    case("a skipped block is not due", lines(), skip=1, output=0)
    for output in (0, 10, 13, 14):
        case("v0=1 in %d bytes" % output, lines(formula="eq v0 1"), output=output)
    case("spent before path", lines(), path=2, budget=2)
    case("path limit 2", lines(), path=2)
    case("budget 0", lines(), budget=0)


# ---------------------------------------------------------------- slips of the loom

def slips():
    formulas("""
some l0 -1 1 eq v0 div 6 l0
or or lt v0 1 eq v0 1 or gt v0 2 eq v0 2
some l0 2147483647 2147483647 eq v0 l0
all l0 2147483647 2147483647 true
all l0 2147483646 2147483647 ne l0 0
some l0 -2147483648 -2147483647 eq v0 l0
some l0 2147483647 -2147483648 true
all l0 2147483647 -2147483648 eq 1 2
not eq 1 div 1 0
imp eq 1 div 1 0 eq v0 1
not and eq 1 1 eq 1 div 1 0
not and eq 1 2 eq 1 div 1 0
not or eq 1 div 1 0 eq 1 2
not or eq 1 div 1 0 eq 1 1
""")
    formulas("""
or eq a0 0 1 eq a0 1 2
or and eq a0 0 1 eq 1 2 eq a0 1 5
some l0 0 1 eq a0 l0 7
and or eq a0 0 1 eq a0 1 2 or eq a0 0 3 eq a0 1 4
and some l0 0 1 eq a0 l0 7 some l1 0 1 eq a0 l1 8
and or and eq a0 0 1 lt a0 1 0 true eq a0 0 2
all l0 0 1 ex l1 and eq l1 add l0 10 eq a0 l0 l1
all l0 0 1 ex l1 or eq l1 l0 eq a0 l0 l1
and ex l0 eq l0 1 and ex l1 eq l1 2 eq a0 0 3
""", locals="2", arrays="2")


# ---------------------------------------------------------------- limits

def declared_limits():
    case("64 scalars", lines(scalars="64", formula="and eq v63 1 eq v0 2"))
    case("65 scalars", lines(scalars="65"))
    case("v64 of 64", lines(scalars="64", formula="eq v64 1"))
    case("given v64 of 64", lines(scalars="64", given="v63:1,v64:1"))
    case("32 locals", lines(locals="32", formula=" ".join("ex l%d" % n for n in range(32)) + " and eq l31 3 eq v0 l31"))
    case("32 locals, l32", lines(locals="32", formula="ex l32 true"))
    case("33 locals", lines(locals="33"))
    case("16 arrays", lines(arrays=",".join("2" * 16), formula="all l0 0 1 eq a15 l0 l0"))
    case("a16 of 16", lines(arrays=",".join("2" * 16), formula="eq a16 0 1"))
    case("17 arrays of 2", lines(arrays=",".join("2" * 17)))
    case("512 cells, one array", lines(scalars="0", arrays="512", formula="and eq a0 511 1 eq a0 0 2"))
    case("512 cells, all valued", lines(scalars="0", arrays="512", formula="all l0 0 511 eq a0 l0 sub 0 l0"), path=1100, output=8192)
    case("512 cells, all valued, output too small", lines(scalars="0", arrays="512", formula="all l0 0 511 eq a0 l0 l0"), path=1100)
    case("512 cells, two arrays", lines(scalars="0", arrays="500,12", given="a0.499:1,a1.11:2"))
    case("513 cells, two arrays", lines(scalars="0", arrays="500,13"))
    case("512 cells with one scalar", lines(arrays="511"))
    case("513 cells with one scalar", lines(arrays="500,12"))
    case("512 cells with 64 scalars", lines(scalars="64", arrays="448", given="v63:1,a0.0:2,a0.447:3"))
    case("513 cells with 64 scalars", lines(scalars="64", arrays="449"))
    case("an array of 513", lines(scalars="0", arrays="513"))
    case("an array of 0", lines(arrays="0"))
    case("element 512 of 512", lines(scalars="0", arrays="512", given="a0.512:1"))
    case("every scalar given", lines(scalars="64", given=",".join("v%d:%d" % (n, -n) for n in range(64))))
    case("every element given", lines(scalars="1", arrays="3,4", given="v0:1," + ",".join(
        "a%d.%d:%d" % (a, e, 10 * a + e) for a, n in ((0, 3), (1, 4)) for e in range(n))))


def text_limits():
    case("1,024 tokens", lines(formula="not eq %s %s" % (ones(8), ones(8))))
    case("1,025 tokens", lines(formula="not not eq %s %s" % (ones(8), ones(8))))
    case("1,025 tokens, the last one empty", lines(formula="not not eq %s %s" % (ones(8), ones(8)))[:-2] + "\n")
    case("nesting 64", lines(formula="not " * 63 + "true"))
    case("nesting 65", lines(formula="not " * 64 + "true"))
    case("nesting 65, an empty token", lines(scalars="0", locals="0", formula="not " * 64))
    case("nesting 64, terms", lines(formula="eq v0 " + "add 1 " * 61 + "1"))
    case("nesting 65, terms", lines(formula="eq v0 " + "add 1 " * 63 + "1"))
    case("nesting 64, indices", lines(arrays="1", given="a0.0:0", formula="eq " + "a0 " * 62 + "0 0"))
    case("nesting 65, a bad constant", lines(formula="not " * 64 + "00"))
    for size in (4095, 4096, 4097, 4098):
        case("%d bytes" % size, padded(size))
        case("%d bytes, two line feeds at the end" % size, padded(size - 1) + "\n")
    case("4,097 bytes and too few words", padded(4097), words=100)


def lent_limits():
    for path in (0, 1, 2, 3, 32768, 32769, 4294967295):
        case("path limit %d" % path, lines(), path=path, words=399360)
    for path in (1, 512, 32768):
        case("path limit %d, one word too few" % path, lines(), path=path, words=6143 + 12 * path)
    case("no words", lines(), words=0)
    case("too few words and a bad sheet", "x", words=6143)
    deep = lines(locals="2", formula="ex l1 all l0 1 16382 true")
    case("a path of 32,768 nodes", deep, path=32768)
    case("a path one too long", deep, path=32767)
    case("its budget just enough", deep, path=32768, budget=32768)
    case("its budget one too small", deep, path=32768, budget=32767)
    three = lines(formula="some l0 1 3 or eq v0 l0 lt v0 0")
    for skip in (0, 1, 2, 5, 6, 7, 4294967295):
        case("skip %d of 6" % skip, three, skip=skip)
    for output in (0, 13, 14, 33, 34, 48, 100, 101, 102):
        case("three answers and three errors in %d bytes" % output, three, output=output)
        case("the same after a skip of 1", three, output=output, skip=1)
    for budget in (0, 1, 2, 3, 4, 10, 11, 12, 13, 14, 4294967295):
        case("the same under budget %d" % budget, three, budget=budget)
    case("65,536 output bytes", lines(formula="some l0 -2000 2000 eq v0 mul l0 1000000"), output=65536, skip=1000)
    case("65,536 output bytes, full", lines(arrays="500", formula="all l0 0 499 eq a0 l0 mul -100000 l0"), path=1100, output=65536)
    case("a block that just fits, after others", lines(formula="or true or true true"), output=27)
    case("a block that fails to fit, after others", lines(formula="or true or true true"), output=26)


# ---------------------------------------------------------------- kinds, words, inner trees

def kinds():
    """Every error kind: where it arises, and which of two decides."""
    formulas("""
eq v0 v1
eq v0 v0
eq v0 add v0 1
eq add v0 1 v0
eq v0 add v1 1
lt v0 1
ge 1 v0
ne v0 v0
eq v0 add 2147483647 1
eq v0 sub -2147483648 1
eq v0 mul 65536 65536
eq v0 mul -2147483648 -1
eq v0 sub 0 -2147483648
eq v0 div 1 0
eq v0 mod 1 0
eq v0 div 0 0
eq div 1 0 v0
eq div 1 0 mul 65536 65536
eq mul 65536 65536 div 1 0
lt div 1 0 v0
lt v0 div 1 0
eq v0 add div 1 0 v1
eq v0 add v1 div 1 0
eq v0 div v1 0
eq v0 div mul 65536 65536 0
eq v0 a0 2
eq v0 a0 -1
eq v0 a0 v1
eq a0 2 1
eq a0 -1 1
eq a0 2147483647 a0 -2147483648
eq a0 a0 0 1
eq a0 0 a0 1
eq a0 0 a0 0
and eq v0 1 eq a0 v0 v1
and eq v0 1 and eq a0 v0 v0 eq a0 0 a0 1
some l0 div 1 0 v0 true
some l0 v0 div 1 0 true
some l0 1 div 1 0 true
all l0 mul 65536 65536 1 true
all l0 1 a0 5 true
all l0 1 a0 0 true
imp eq v0 1 true
imp true eq v0 v1
not lt l0 1
ex l0 not eq l0 0
ex l0 imp eq l0 1 true
ex l0 and eq l0 1 not eq l0 2
not ex l0 eq l0 1
not eq a0 0 1
imp eq a0 0 1 true
and eq a0 0 1 not eq a0 0 2
and eq a0 0 1 not eq a0 0 1
and eq a0 0 1 not eq a0 1 1
ex l0 eq l0 l0
ex l0 eq v0 l0
ex l0 and eq v0 3 and eq l0 v0 eq v1 l0
eq 5 v0
eq 5 a0 1
and eq v0 1 eq v0 2
and eq v0 1 eq 1 v0
""", scalars="2", arrays="2")


def words():
    """Every token word, true, false, and with each sign."""
    for word in ("eq", "ne", "lt", "le", "gt", "ge"):
        for a, b in ((1, 2), (2, 2), (2, 1), (-1, 0), (LOW, HIGH), (HIGH, LOW), (LOW, LOW)):
            formulas("%s %s %s" % (word, a, b))
    for word in ("add", "sub", "mul", "div", "mod"):
        for a, b in ((7, 2), (-7, 2), (7, -2), (-7, -2), (0, 5), (6, 3), (LOW, 1), (LOW, -1), (HIGH, -1), (HIGH, HIGH), (LOW, LOW),
                     (46340, 46340), (46341, 46341), (-46341, 46341), (32768, 65536), (-32768, 65536), (1, LOW), (HIGH, LOW)):
            formulas("eq v0 %s %s %s" % (word, a, b))
    formulas("""
and true true
and eq 1 2 true
and true eq 1 2
or true true
or eq 1 2 true
or eq 1 2 eq 1 3
imp true true
imp eq 1 2 eq 1 2
imp true eq 1 2
imp eq 1 2 eq v0 1
imp true eq v0 1
not true
not eq 1 2
ex l0 true
ex l0 eq l0 3
ex l0 and eq l0 3 eq v0 l0
some l0 1 3 true
some l0 1 3 eq v0 l0
some l0 3 3 eq v0 l0
some l0 3 2 eq v0 l0
some l0 -1 1 and ne l0 0 eq v0 l0
all l0 1 3 true
all l0 1 3 lt l0 3
all l0 3 3 eq v0 l0
all l0 1 2 eq v0 l0
all l0 3 2 eq v0 l0
or or eq v0 1 eq v0 2 or eq v0 3 eq v0 4
and or eq v0 1 eq v0 2 or eq v0 2 eq v0 3
""")
    formulas("""
some l0 1 2 some l1 l0 2 eq v0 add l0 l1
all l0 1 2 some l1 1 2 eq a0 l0 l1
some l0 1 2 all l1 l0 2 eq a0 l1 l0
all l0 0 2 all l1 0 l0 ne a0 l0 5
all l0 0 2 eq a0 l0 sub 2 l0
and eq a0 0 1 and eq a0 a0 0 2 eq a0 a0 a0 0 v0
and eq a0 0 a1 0 true
eq a1 0 3
and all l0 0 2 eq a0 l0 l0 some l1 0 2 and gt a0 l1 0 eq v0 a0 l1
""", locals="2", arrays="3,1")
    formulas("""
true
eq v0 8
eq v0 7
eq a0 0 1
eq a0 1 -1
eq v1 add v0 a0 1
not eq v0 7
imp eq v0 7 eq a1 0 v0
""", scalars="2", arrays="2,1", given="v0:7,a0.1:-1")


def inner_trees():
    formulas("""
not not true
not not eq 1 2
not not not eq 1 2
not not or eq 1 2 eq 1 div 1 0
not imp true eq 1 2
not imp true eq 1 1
not imp eq 1 2 eq 1 2
imp imp true true eq v0 1
imp not eq 1 1 eq v0 1
imp not eq 1 2 eq v0 1
imp imp eq 1 2 eq 1 1 eq v0 1
not some l0 1 3 eq l0 4
not some l0 1 3 eq l0 2
not all l0 1 3 lt l0 3
not all l0 1 3 lt l0 4
not ex l0 and eq l0 1 eq l0 2
not ex l0 and eq l0 1 not eq l0 2
not ex l0 not eq l0 2
and eq v0 1 not eq v0 2
and eq v0 1 not not eq v0 1
and eq v0 1 imp eq v0 1 lt v0 2
and eq v0 1 imp eq v0 2 lt v0 1
some l0 1 4 and not eq l0 2 eq v0 l0
some l0 1 4 and imp lt l0 3 eq v0 1 eq l0 l0
all l0 1 4 not eq l0 5
all l0 1 4 imp gt l0 2 ge l0 3
or not true eq v0 1
or not eq 1 2 eq v0 1
and not eq 1 2 eq v0 1
""")
    for n in range(58, 62):
        formulas("not " * n + "eq 1 1")
        formulas("not " * n + "eq 1 div 1 0")
    for n in (10, 30):
        formulas("imp " * n + "true" + " eq 1 1" * n)
        formulas("imp true " * n + "eq v0 %d" % n)
        formulas("imp not " * n + "eq 1 2" + " true" * n)
    nested = lines(locals="3", formula="and eq v0 2 not some l0 0 2 and eq l0 v0 not some l1 0 2 and eq l1 l0 not eq l1 2")
    case("nested inner trees", nested)
    for path in range(1, 17):
        case("the same under path limit %d" % path, nested, path=path)
    for budget in range(0, 40, 3):
        case("the same under budget %d" % budget, nested, budget=budget)
    queens = "all l0 0 3 some l1 0 3 and eq a0 l0 l1 all l2 0 sub l0 1 and ne a0 l2 l1 and ne sub a0 l2 l1 sub l0 l2 ne sub l1 a0 l2 sub l0 l2"
    case("four queens", lines(scalars="0", locals="3", arrays="4", formula=queens))
    case("no three queens", lines(scalars="0", locals="3", arrays="3", formula=queens.replace("3 ", "2 ")))


# ---------------------------------------------------------------- negation over what has no value (document 02, Two)

def negations():
    """A success inside counts if it gave no value to a cell, or to a local bound outside."""
    declared = dict(scalars="3", locals="4", arrays="2")
    # a success that gave a value, one that gave none, and failures only
    formulas("""
not and eq v0 0 eq v0 1
not eq v2 2
and eq v0 1 not eq v2 2
and not and eq v0 0 eq v0 1 eq v0 2
not or eq v0 0 eq 1 1
not or eq 1 1 eq v0 0
not or eq v0 0 or eq v1 0 true
not or eq v0 0 eq v1 0
not or eq v0 0 eq 1 2
not or eq 1 2 eq v0 0
not or eq v0 div 1 0 true
not or eq v0 0 and eq v0 0 eq v0 1
not and or eq v0 0 true true
not and or eq v0 0 true eq v0 1
not and or eq v0 0 eq v1 0 and eq v0 1 eq v0 2
not and eq 1 2 eq v0 v1
not and eq v0 1 eq v1 v2
imp eq v0 0 eq v1 1
imp and eq v0 0 eq v0 1 eq v1 1
imp or eq v0 0 true eq v0 1
imp or true eq v0 0 eq v0 1
imp or eq v0 0 eq 1 2 eq v0 1
""", **declared)
    # locals: bound inside, again in each round, and outside
    formulas("""
not ex l0 eq l0 0
not ex l0 and eq l0 1 eq l0 2
not ex l0 and eq l0 1 eq v0 l0
not some l0 1 3 eq v0 l0
not some l0 0 2 or eq v0 l0 eq l0 1
not all l0 1 2 eq v0 l0
not all l0 1 2 ex l1 eq l1 l0
not and ex l0 eq l0 1 ex l1 eq l1 2
not and ex l0 eq l0 1 ex l1 eq v0 2
imp ex l0 eq l0 0 eq v0 1
ex l0 not eq l0 0
ex l0 and not and eq l0 1 eq l0 2 eq v0 3
ex l0 not ex l1 and eq l1 1 eq l0 l1
ex l0 not or eq l0 1 ex l1 eq l1 2
ex l0 and imp and eq l0 1 eq l0 2 eq v0 1 eq l0 3
some l0 1 2 and not eq l0 2 not eq v0 l0
and ex l0 eq l0 1 not ex l1 eq l1 2
""", **declared)
    # elements
    formulas("""
not eq 2 a0 0
not and eq a0 0 1 eq a0 0 2
not and eq a0 0 1 eq a0 1 2
not all l0 0 1 eq a0 l0 l0
not and all l0 0 1 eq a0 l0 0 eq a0 0 1
not or eq a0 1 0 true
not and eq v0 1 eq a0 v0 v0
not and eq v0 2 eq a0 v0 1
and eq a0 0 1 not and eq a0 1 2 eq a0 1 a0 0
imp and eq a0 0 1 eq a0 0 2 eq a0 1 3
""", **declared)
    # a `not` inside: what it gave is gone, and its own test is against the values at its place
    formulas("""
not not eq v0 0
not not and eq v0 0 eq v0 1
not and not and eq v0 0 eq v0 1 true
not and not and eq v0 0 eq v0 1 eq v0 2
not and not or eq v0 0 true true
not and eq v0 0 not eq v0 0
not and eq v0 0 not eq v0 1
not and eq v0 0 not or eq v0 0 eq v1 1
not and eq v0 0 not eq v1 1
not and eq v0 0 not and eq v1 1 eq v1 2
and eq v0 0 not and eq v1 1 not eq v1 1
not ex l0 and eq l0 0 not eq l0 0
not ex l0 and eq l0 0 not eq l0 1
not ex l0 not and eq l0 0 eq l0 1
not ex l3 not eq l3 0
not or not eq v0 0 true
imp not and eq v0 0 eq v0 1 eq v0 2
""", **declared)
    # an `imp` inside: what its right side gave counts, what its left side gave is gone
    formulas("""
not imp true eq v1 0
not imp true and eq v1 0 eq v1 1
not imp true ex l0 eq l0 0
not imp and eq v0 0 eq v0 1 eq v1 0
not imp eq v0 0 eq v1 0
not imp or eq v0 0 true true
not and imp true eq v1 0 eq v1 1
not and eq v0 0 imp eq v0 0 eq v0 1
imp imp true eq v0 0 eq v1 1
imp imp true and eq v0 0 eq v0 1 eq v1 1
imp and eq v0 0 imp eq v0 0 eq v1 1 eq v2 2
""", **declared)
    for n in (3, 30):
        formulas("not " * n + "eq v0 0", **declared)
        formulas("not " * n + "and eq v0 0 eq v0 1", **declared)
        formulas("imp " * n + "eq v0 0" + " eq v1 1" * n, **declared)
        formulas("imp " * n + "and eq v0 0 eq v0 1" + " eq v1 1" * n, **declared)


def negations_cut():
    """The same where the walk is ended inside such a tree, around it or after it, and where blocks are skipped."""
    def under(formula, path, nodes):
        """The case under each path limit up to `path`, which is enough, and each budget up to `nodes`."""
        sheet = lines(scalars="2", locals="2", arrays="2", given="v1:7", formula=formula)
        case(formula, sheet)
        for limit in range(1, path + 1):
            case("the same under path limit %d" % limit, sheet, path=limit)
        for budget in range(nodes + 1):
            case("the same under budget %d" % budget, sheet, budget=budget)
        return sheet
    under("and eq a0 1 5 or not ex l0 and eq l0 v1 not and eq v0 l0 eq v0 3 imp not or eq v0 1 some l1 6 7 eq l1 v1 eq v0 4", 12, 30)
    three = under("or not and eq v0 0 eq v0 1 or not eq v0 2 not or eq a0 0 0 true", 7, 23)
    for output, skip in ((13, 0), (14, 0), (39, 0), (40, 0), (25, 1), (26, 1), (0, 2)):
        case("the same in %d bytes after a skip of %d" % (output, skip), three, output=output, skip=skip)
    for skip in (0, 1, 2, 3, 4294967295):
        case("error, answer and error after a skip of %d" % skip, lines(formula="or not eq v0 0 or eq v0 1 not eq v0 2"), skip=skip)


# ---------------------------------------------------------------- procedures (document 02, One)

def editions():
    """Edition 2 without a procedure is edition 1; edition 1 has none."""
    case("formula (1.1), edition 2", FORMULA_11.replace("edition=1", "edition=2"))
    for edition in ("4", "02", "2-", "-2", "22", "2x", "2 ", "20", "12"):
        case("edition=" + edition, lines(edition=edition))
    for edition in ("1", "2"):
        formulas("""
call
call 0
call 0 v0
not call 0
eq p0 1
eq 1 p0
p0
ex p0 true
eq p00 1
eq p 1
eq p1x 1
eq a0 p0 1
""", edition=edition)
        for value in ("0:true", "1:eq p0 1", "x", ""):
            case("edition %s with proc=%s" % (edition, value), lines(edition=edition, procedures=[value]))
        givens("p0:1\np", edition=edition)
    for word in ("Call", "cal", "calls", "callx", "P0", "proc"):
        formulas("%s 0" % word, edition="2", procedures=["0:true"])


def calls():
    """A call is one node and then its procedure's formula with the terms in place of the parameters."""
    declared = dict(scalars="3", locals="3", arrays="3")
    # where a call may stand
    formulas("""
call 0
call 1 v0
and call 0 call 0
and call 1 v0 call 1 v1
and call 1 v0 call 1 v0
and call 1 v0 call 2 v0 1
and call 1 v0 call 2 v0 2
or call 1 v0 call 1 v1
not call 0
not call 2 1 2
not call 2 1 1
imp call 0 call 1 v0
imp call 2 1 2 call 1 v0
ex l2 and call 1 l2 eq v0 l2
ex l2 and call 1 l2 call 2 v0 l2
some l2 1 3 call 2 v0 l2
some l2 1 3 and call 2 v0 l2 call 2 l2 2
all l2 1 3 call 3 l2 1
all l2 0 2 call 2 a0 l2 mul l2 l2
all l2 0 2 call 1 a0 l2
and call 3 1 2 call 3 2 2
call 2 v0 div 7 2
call 2 div 7 2 v0
""", edition="2", procedures=["0:true", "1:eq p0 1", "2:eq p0 p1", "2:le p1 p0"], **declared)
    # where a parameter may stand
    libraries("""
1:eq p0 1
call 0 v0

1:eq 1 p0
call 0 v0

1:eq v0 add p0 p0
call 0 4

1:eq v0 sub mul p0 p0 div p0 mod p0 3
call 0 5

1:eq a0 p0 7
call 0 2

1:eq v0 a0 add p0 1
and eq a0 1 8 call 0 0

1:some l0 p0 2 eq v0 l0
call 0 1

1:some l0 1 p0 eq v0 l0
call 0 2

2:all l0 p0 p1 eq a0 l0 p1
call 0 0 2

2:all l0 p0 p1 eq a0 l0 p1
call 0 2 0

1:not eq p0 1
call 0 2

1:imp eq p0 1 eq v0 p0
call 0 1

1:ex l0 and eq l0 p0 eq v0 add l0 p0
call 0 3

1:eq p0 1
1:call 0 p0
call 1 v0

2:eq p0 p1
1:call 0 v0 add p0 1
call 1 5

2:eq p0 p1
2:call 0 p1 p0
call 1 3 v1

1:eq a0 p0 7
1:call 0 mul p0 2
call 1 1

1:eq v0 p0
1:call 0 a0 p0
and eq a0 2 6 call 1 2

8:eq v0 add add add p0 p1 add p2 p3 add add p4 p5 add p6 p7
call 0 1 2 3 4 5 6 7 8
""", **declared)
    # which argument stands where: earlier procedures, each called with its own
    libraries("""
2:eq p0 p1
2:and call 0 p0 1 call 0 p1 2
call 1 v0 v1

2:eq p0 p1
2:and call 0 p0 p1 call 0 p1 p0
call 1 v0 4

2:lt p0 p1
2:and call 0 p0 p1 call 0 add p0 1 sub p1 1
and call 1 1 4 call 1 1 3

1:eq p0 1
1:call 0 p0
1:and call 1 p0 call 0 v2
call 2 v1

2:eq p0 sub p1 1
2:call 0 p0 mul 2 p1
2:call 1 p0 add p1 p1
call 2 v0 3

2:or eq p0 p1 eq p0 add p1 1
2:and call 0 p0 p1 call 0 p1 p0
and eq v0 4 call 1 v1 v0
""", **declared)


def arguments():
    """When an argument is valued, what it assigns, and which errors arise."""
    declared = dict(scalars="3", locals="3", arrays="3")
    # a bare place that is passed in may be assigned
    libraries("""
1:eq p0 1
call 0 v2

1:eq p0 1
call 0 a0 2

1:eq p0 1
ex l1 and call 0 l1 eq v0 add l1 1

1:eq p0 1
and call 0 v0 call 0 v0

1:and eq p0 1 eq p0 2
call 0 v0

1:or eq p0 1 or eq p0 2 eq p0 1
call 0 a0 0

1:eq p0 5
1:call 0 p0
1:call 1 p0
all l2 0 2 call 2 a0 l2

1:eq p0 1
call 0 add v0 0

1:eq p0 1
call 0 a0 v0

1:eq p0 1
call 0 a0 3

1:eq p0 1
and eq v0 2 call 0 a0 v0

2:eq p0 p1
call 0 v0 v1

2:eq p0 p1
call 0 v0 v0

2:eq p0 p1
call 0 v0 a0 1

2:eq p0 p1
call 0 a0 a0 0 1

2:and eq p0 1 eq p1 2
call 0 v0 v0

2:and eq p0 1 eq p1 1
call 0 v0 v0

2:and eq p0 1 eq p1 2
call 0 v0 v1
""", **declared)
    # it is valued where it stands, not at the call
    libraries("""
2:and eq p0 1 eq p1 2
call 0 v0 add v0 1

2:and eq p1 2 eq p0 1
call 0 v0 add v0 1

2:and eq p0 1 eq p1 5
call 0 v0 a0 v0

2:and eq p0 1 eq p1 5
1:call 0 p0 a0 p0
call 1 v0

2:or and eq p0 1 eq v1 p1 and eq p0 2 eq v1 p1
call 0 v0 add v0 10

1:and eq v0 3 eq v1 p0
1:call 0 add p0 1
call 1 v0

1:and lt p0 5 eq v0 p0
and eq v1 4 call 0 v1

1:and eq v0 1 some l0 p0 3 eq v1 l0
call 0 v0

1:some l0 1 2 and eq v0 l0 lt p0 3
call 0 add v0 1

1:all l0 0 2 and eq a0 l0 l0 le p0 2
call 0 a0 0

1:some l0 p0 3 eq p0 v0
call 0 v0

1:and eq p0 7 eq v0 p0
ex l2 call 0 l2
""", **declared)
    # errors: those of a part that stands nowhere do not arise; the others tell the token in the procedure's line
    libraries("""
1:true
call 0 div 1 0

1:true
call 0 v0

2:eq p1 1
call 0 a0 9 v0

2:eq p1 1
1:call 0 div 1 0 p0
call 1 v0

1:or true eq p0 1
call 0 div 1 0

1:imp eq 1 2 eq p0 1
call 0 div 1 0

1:lt p0 3
call 0 v0

1:lt p0 3
call 0 div 1 0

1:lt p0 3
call 0 mul 65536 65536

1:lt p0 3
call 0 a0 3

0:true
1:and true lt p0 3
and true call 1 v0

0:true
1:and true lt p0 3
and call 1 1 lt v0 3

1:some l0 p0 3 true
call 0 v0

1:all l0 0 p0 true
call 0 div 1 0

1:or lt p0 1 or eq v0 p0 eq p0 add p0 1
call 0 v1

2:eq p0 p1
call 0 v0 div 1 0

2:eq p0 p1
call 0 a0 v0 div 1 0

2:eq p0 p1
call 0 div 1 0 a0 v0

2:eq p0 add p1 p1
call 0 v0 v1

2:eq add p0 p1 1
call 0 div 1 0 mul 65536 65536

2:eq add p1 p0 1
call 0 div 1 0 mul 65536 65536

1:eq p0 1
1:or call 0 p0 call 0 add p0 1
or call 1 v0 call 1 v1
""", **declared)


def bound_anew():
    """The same procedure called twice in one branch: its locals are bound anew."""
    libraries("""
1:ex l0 and eq l0 1 eq p0 l0
and call 0 v0 call 0 v1

2:ex l0 and eq l0 p1 eq p0 l0
and call 0 v0 1 call 0 v1 2

2:ex l0 and eq l0 p1 eq p0 add l0 l0
all l1 0 2 call 0 a0 l1 l1

2:ex l0 or eq l0 p1 eq p0 l0
all l1 0 1 call 0 a0 l1 l1

1:some l0 1 2 eq p0 l0
and call 0 v0 call 0 v1

1:some l0 1 2 eq p0 l0
and call 0 v0 and call 0 v1 ne v0 v1

2:all l0 0 p1 eq p0 p0
and call 0 1 1 call 0 2 2

1:all l0 0 p0 eq a0 l0 p0
and call 0 2 call 0 2

1:all l0 0 2 some l1 0 1 or eq a0 l0 add p0 l1 eq a0 l0 sub p0 l1
call 0 5

2:some l0 p0 p1 eq v0 l0
some l1 1 2 call 0 l1 add l1 1

1:ex l0 eq p0 l0
and call 0 v0 call 0 v1

1:ex l0 and eq p0 l0 eq l0 3
call 0 5

2:ex l0 and eq l0 p0 eq p1 add l0 1
2:ex l1 and call 0 p0 l1 call 0 l1 p1
2:ex l2 and call 1 p0 l2 call 1 l2 p1
and call 2 1 v0 call 2 v0 v1

0:ex l0 and eq l0 1 eq v0 l0
all l1 1 3 call 0
""", scalars="3", locals="3", arrays="3")


def inner_calls():
    """`not` and `imp` with calls: what a local of a procedure is to the trees around it, and a parameter without value."""
    declared = dict(scalars="3", locals="4", arrays="2")
    # a procedure's `not` or `imp` over a parameter
    formulas("""
call 0 v0
call 0 1
call 0 0
call 0 add v0 1
call 0 a0 1
call 0 a0 v0
call 0 div 1 0
and eq v0 1 call 0 v0
and eq v0 0 call 0 v0
ex l3 call 0 l3
ex l3 and eq l3 1 call 0 l3
not call 0 v0
not ex l3 call 0 l3
not ex l3 and eq l3 1 call 0 l3
call 1 v0
and call 1 v0 eq v0 5
ex l3 and call 1 l3 eq l3 5
not call 1 v0
call 2 v0 v1
call 2 0 v1
call 2 1 v1
ex l3 call 2 l3 v1
ex l3 call 2 v1 l3
not call 2 0 v1
not call 2 1 v1
not ex l3 call 2 0 l3
ex l3 not call 2 0 l3
""", edition="2", procedures=["1:not eq p0 0", "1:not and eq p0 0 eq p0 1", "2:imp eq p0 0 eq p1 7"], **declared)
    libraries("""
2:not eq p0 0
ex l0 call 0 l0 v0

1:eq p0 0
ex l0 not call 0 l0

1:eq p0 0
not ex l0 call 0 l0

1:eq p0 0
not call 0 v0

1:eq p0 0
not call 0 a0 1

1:eq p0 0
not or call 0 v0 eq 1 1

1:eq p0 0
not and call 0 v0 call 0 v0

1:eq p0 0
imp call 0 v0 eq v1 1

1:eq p0 0
not imp true call 0 v0

1:eq p0 0
1:not call 0 p0
not ex l0 call 1 l0

1:eq p0 0
1:not not call 0 p0
call 1 v0
""", **declared)
    # locals of the procedures called are bound inside whatever calls them
    libraries("""
0:ex l0 eq l0 1
not call 0

0:ex l0 eq l0 1
not and call 0 call 0

0:ex l0 eq l0 1
and call 0 not call 0

0:ex l0 eq l0 1
imp call 0 eq v0 1

0:ex l0 eq l0 1
0:call 0
0:ex l1 and eq l1 2 call 1
not call 2

1:ex l0 eq l0 p0
not call 0 1

1:ex l0 eq l0 p0
not call 0 v0

1:ex l0 and eq l0 1 eq p0 l0
not call 0 v0

1:ex l0 and eq l0 1 eq p0 l0
not ex l1 call 0 l1

1:ex l0 and eq l0 1 eq p0 l0
ex l1 not call 0 l1

1:ex l0 and eq l0 1 eq p0 l0
1:ex l1 and call 0 l1 eq p0 l1
not ex l2 call 1 l2

1:ex l0 and eq l0 1 eq p0 l0
1:ex l1 and call 0 l1 eq p0 l1
not call 1 v0

0:ex l0 not eq l0 0
not call 0

1:ex l0 not eq p0 0
ex l1 call 0 l1

1:ex l0 not eq p0 0
not ex l1 call 0 l1

1:ex l0 and eq l0 p0 not eq l0 2
and call 0 1 call 0 2

1:ex l0 and not and eq l0 1 eq p0 l0 eq l0 1
call 0 v0

1:some l0 1 2 eq p0 l0
not call 0 1

1:some l0 1 2 eq p0 l0
not call 0 v0

1:all l0 1 2 ex l1 eq l1 p0
not call 0 3

1:not ex l0 and eq l0 1 eq p0 l0
1:not ex l1 and eq l1 1 call 0 l1
call 1 v0

1:not ex l0 and eq l0 1 eq p0 l0
1:not ex l1 and eq l1 1 call 0 p0
call 1 v0

1:not ex l0 and eq l0 1 eq p0 l0
0:not ex l1 call 0 l1
call 1
""", **declared)


def call_numbers():
    """K, a token of its own: 9, then 4, then 6, then 11."""
    text = """
call
call 
call  0
call 0 
call 0 v0
call 0 v0 
call 0 v0 1
call 0 v0 v0
call 1 v0 1
call 2
call 3 v0
call 9
call 10
call 99999999999
call 4294967295
call 4294967296
call 4294967297
call 18446744073709551616
call 2147483648
call 00
call 01
call -0
call -1
call -2147483649
call -
call --0
call +0
call 0-
call 0x
call 0,
call x
call v0
call v0 v0
call l0
call a0
call p0
call true
call call
call call 0 v0
call 0 true
call 0 call
call 0 l0
call 0 l1
call 0 v1
call 0 a0 0
call 0 00
call 0 p0
call 0 ex
call 0 add v0
call 0 add v0 1
call 1 v0
call 1 v0 
call 1 v0,
not call
and call 0 v0
and call 0 v0 
and call 0 v0 call 3
and call 0 v0 call -3
"""
    formulas(text, edition="2", procedures=["1:eq p0 1", "2:eq p0 p1", "0:true"])
    formulas("call 0\ncall -0\ncall v0\ncall 99999999999\ncall", edition="2")
    for n in (99, 999):
        formulas("call " + "1" * n, edition="2", procedures=["0:true"])
    libraries("""
0:call 0
true

0:call 1
0:true
true

0:true
0:call 1
true

0:call 99999999999
true

0:call -0
true

0:call x
true

1:call 0 p0
call 0 v0

1:true
1:call 0
true

1:true
1:call 0 p1
true

1:true
2:call 0 p1
call 1 v0 5
""")


def parameter_names():
    """12, where 7 is tested: after 9, 4 and 6."""
    formulas("""
p0
not p0
eq p0 1
eq 1 p0
eq v0 add 1 p0
eq a0 p0 1
eq p1 1
eq p00 1
eq p-1 1
eq p 1
eq px 1
eq p0x 1
eq p99999999999999999999 1
ex p0 true
some p0 1 2 true
some l0 p0 2 true
call 0 p0
call p0 v0
call 0 p0x
""", edition="2", arrays="1", procedures=["1:eq p0 1"])
    for n, formula in ((0, "eq p0 1"), (1, "eq p0 1"), (1, "eq p1 1"), (1, "eq p01 1"), (7, "eq p7 1"), (8, "eq p7 1"), (8, "eq p8 1"),
                       (8, "eq p10 1"), (2, "eq p4294967296 1"), (2, "eq p18446744073709551617 1"), (1, "p0"), (1, "not p0"),
                       (1, "ex p0 true"), (1, "eq p0 p1"), (2, "eq p1 l1"), (1, "ex l0 eq p0 l0"), (1, "some l0 p0 p1 true")):
        case("proc=%d:%s" % (n, formula), lines(edition="2", procedures=["%d:%s" % (n, formula)]))


def local_binders():
    """A local has one binder in the whole sheet, and stands in that one's line only."""
    libraries("""
0:ex l0 true
ex l0 true

0:ex l0 true
0:ex l0 true
true

0:ex l0 true
0:ex l1 true
call 1

0:ex l0 true
eq l0 1

0:eq l0 1
ex l0 call 0

0:eq l0 1
true

1:eq p0 l0
ex l0 call 0 l0

1:eq p0 1
call 0 l0

1:eq p0 1
and ex l0 true call 0 l0

1:eq p0 1
some l0 1 2 call 0 l0

1:ex l0 call 0 p0
true

0:some l0 1 2 true
0:and true all l0 1 2 true
true

0:true
0:ex l0 some l0 1 2 true
true

0:ex l0 true
0:ex l1 eq l0 1
true

0:ex l2 true
true
""", locals="2")


def procedure_lines():
    """The lines between given and formula: their keys, their numbers, the byte after each."""
    for value in ("", "0", "0:", "0:true", "8:true", "9:true", "10:true", "00:true", "01:true", "-0:true", "-1:true", "1-:true", "--:true",
                  "-:true", "x:true", ":true", " 0:true", "0 :true", "0: true", "0:true ", "0::true", "0;true", "0.true", "0=true", "0,true",
                  "0true", "99999999999:true", "4294967296:true", "9x", "0:x", "0:true x", "0:and true", "0:and true ", "1:eq p0", "1:eq p0 ",
                  "0:1", "0:2147483648", "0:00", "0:v0", "0:ex true", "0:eq v1 1", "0:eq l1 1", "+1:true", "0:proc=0:true",
                  "0:formula=true", "0\r:true"):
        case("proc=%r" % value, lines(edition="2", procedures=[value]))
    good = lines(edition="2", scalars="1", procedures=["0:true", "2:ex l0 eq p0 p1"], formula="call 1 v0 3")
    case("whole, with procedures", good)
    for k in range(good.index("proc="), good.index("call")):
        case("cut to %d bytes" % k, good[:k])
        case("byte %d an x" % k, good[:k] + "x" + good[k + 1:])
    rows = good.split("\n")[:-1]
    for k in range(4, len(rows)):
        for row in ("", "proc", "proc=", "Proc=0:true", "procs=0:true", "proc =0:true", "proc=0:true", "formula=true", "given="):
            case("line %d is %r" % (k, row), "".join(line + "\n" for line in rows[:k] + [row] + rows[k + 1:]))
            case("%r before line %d" % (row, k), "".join(line + "\n" for line in rows[:k] + [row] + rows[k:]))
    case("a procedure before the given line", good.replace("given=\nproc=0:true\n", "proc=0:true\ngiven=\n"))
    case("a procedure after the formula", good + "proc=0:true\n")


def procedure_limits():
    def sheet(procedures, formula):
        return lines(edition="2", procedures=procedures, formula=formula)
    # 16 procedures, 8 parameters
    def chain(n, call="call %d"):
        return ["0:eq v0 1"] + ["0:" + call % k for k in range(n - 1)]
    for n in (1, 15, 16, 17, 18):
        case("%d procedures, each calling the one before" % n, sheet(chain(n), "call %d" % (n - 1)))
    case("16 procedures, and a call of a seventeenth", sheet(chain(16), "call 16"))
    case("the seventeenth procedure in bad form", sheet(["0:true"] * 16 + ["x"], "true"))
    case("a chain of 16 under not", sheet(chain(16, "not call %d"), "call 15"))
    case("a chain of 5, each with a choice", sheet(["1:eq p0 1"] + ["1:or call %d p0 call %d p0" % (k, k) for k in range(4)], "call 4 v0"))
    twice = sheet(["0:true"] + ["0:and call %d call %d" % (k, k) for k in range(13)], "call 13")
    for path in (32768, 32767):
        case("a chain of 14, each twice, a path of 32,768 nodes, under path limit %d" % path, twice, path=path)
    for n in (7, 8, 9):
        case("%d parameters" % n, sheet(["%d:eq p%d 3" % (n, n - 1)], "call 0" + " v0" * n))
    numbers = " ".join("12345678")
    case("8 parameters, all used", sheet(["8:eq v0 " + "add " * 7 + " ".join("p%d" % k for k in range(8))], "call 0 " + numbers))
    case("8 arguments and one more", sheet(["8:true"], "call 0 %s 9" % numbers))
    case("8 arguments less one", sheet(["8:true"], "call 0 " + numbers[:-2]))
    case("8 parameters through 16 procedures", sheet(
        ["8:eq p7 p0"] + ["8:call %d p1 p2 p3 p4 p5 p6 p7 p0" % k for k in range(15)], "call 15 1 2 3 4 5 6 v0 8"))
    # 1,024 tokens through all lines
    half = "0:le %s %s" % (ones(7), ones(7))            # 511 tokens
    for formula in ("call 0", "not not true", "not call 0", "not call -0"):
        case("1,022 tokens before " + formula, sheet([half, half], formula))
    case("1,022 tokens before proc=0:not not true", sheet([half, half, "0:not not true"], "true"))
    case("an error at token 513 in a procedure", sheet([half, "1:and true lt p0 1"], "call 1 v0"))
    case("an error at token 513 in the formula", sheet([half], "and true lt v0 1"))
    # nesting 64 in each line
    deepest = "0:" + "not " * 63 + "true"
    for depth in (63, 64, 65):
        deep = "not " * (depth - 1) + "true"
        case("nesting %d in the first procedure" % depth, sheet(["0:" + deep, "0:true"], "call 0"))
        case("nesting %d in the second procedure" % depth, sheet([deepest, "0:" + deep], "call 1"))
        case("nesting %d in the formula" % depth, sheet([deepest], deep))
        for call in ("call 0 v0", "call -0 v0", "call x", "call 9", "call 0 add", "call 0 p0", "call", "call "):
            case("%s after %d times not" % (call, depth - 2), sheet(["1:true"], "not " * (depth - 2) + call))
    deep = ["1:" + "and true " * 62 + "eq p0 1"] + ["1:" + "and true " * 62 + "call %d p0" % k for k in range(3)]
    case("nesting 64 in each of four procedures", sheet(deep, "call 3 1"))


def many_uses():
    """A parameter that occurs many times in the argument of the next call: a term with more parts than any budget, and few nodes."""
    def used(name, procedures, formula, given=""):
        case(name, lines(edition="2", scalars="3", locals="2", arrays="2", given=given, procedures=procedures, formula=formula))

    def deep(first, argument, depth=15):
        return ["1:" + first] + ["1:call %d %s" % (k, argument) for k in range(depth)]

    def total(parts):
        half = len(parts) // 2
        return parts[0] if half == 0 else "add %s %s" % (total(parts[:half]), total(parts[half:]))

    def same(uses):
        """A term with so many uses of the parameter, an odd number, that is the parameter itself."""
        return total(["sub p0 p0"] * (uses // 2) + ["p0"])

    used("31 uses, 16 deep, of 7", deep("eq v0 p0", same(31)), "call 15 7")
    used("61 uses, 8 deep, of a cell without value", deep("eq v0 p0", same(61), 7), "call 7 v1")
    used("a sum of 31, 16 deep, of 1", deep("eq v0 p0", total(["p0"] * 31)), "call 15 1")
    five = same(5)
    for argument in ("0", "7", "v1", "a0 1", "a0 v1", "div 1 0", "mul 65536 65536", "a0 2", HIGH):
        used("5 uses, 16 deep, of " + argument, deep("eq v0 p0", five), "call 15 " + argument)
    used("valued in the last procedure only", deep("and eq v1 5 eq v0 p0", five), "call 15 v1")
    used("valued there again and again", deep("some l0 1 9 and eq v1 l0 eq v0 p0", five), "call 15 v1")
    used("as a bound", deep("some l0 p0 add p0 2 eq v0 l0", five), "call 15 7")
    used("as an index", deep("eq a0 p0 5", five), "call 15 1")
    used("on both sides", deep("eq add p0 p0 mul p0 p0", five), "call 15 2")
    used("under not, undecided", deep("not eq v0 p0", five), "call 15 7")
    used("under not, decided", deep("not eq p0 8", five), "call 15 7")
    used("in each round", deep("eq a0 p0 p0", five), "all l1 0 1 call 15 l1")
    used("elements of elements", deep("eq v0 p0", "a0 sub mul a0 p0 2 a0 p0"), "call 15 1", given="a0.0:0,a0.1:1")
    two = ["2:eq v0 add p0 p1"] + ["2:call %d add p0 p1 sub p0 p1" % k for k in range(15)]
    used("two parameters, each in both arguments", two, "call 15 3 1")
    used("two parameters, one without value", two, "call 15 3 v1")
    used("two parameters, exchanged", ["2:eq p0 p1"] + ["2:call %d p1 p0" % k for k in range(15)], "call 15 v1 4")


def procedures_cut():
    """Where a run is ended inside a procedure, at its call or after it, and where blocks are skipped."""
    library = ["2:eq p0 p1", "1:some l0 1 2 call 0 p0 l0", "1:not call 0 p0 1"]
    sheet = lines(edition="2", scalars="2", locals="2", procedures=library, formula="and call 1 v0 or call 2 v0 imp call 0 v0 1 lt v1 1")
    case("a run through procedures", sheet)
    for path in range(1, 13):
        case("the same under path limit %d" % path, sheet, path=path)
    for budget in range(34):
        case("the same under budget %d" % budget, sheet, budget=budget)
    for output, skip in ((0, 0), (13, 0), (14, 0), (39, 0), (40, 0), (25, 1), (26, 1), (0, 2), (0, 4)):
        case("the same in %d bytes after a skip of %d" % (output, skip), sheet, output=output, skip=skip)
    long = lines(edition="2", locals="2", procedures=["1:ne p0 0"], formula="all l0 1 10000 call 0 l0")
    for path in (30003, 30002):
        case("a path of 30,003 nodes under path limit %d" % path, long, path=path)
    queens = ["4:and ne p1 p3 and ne sub p1 p3 sub p2 p0 ne sub p3 p1 sub p2 p0"]
    case("four queens with calls", lines(edition="2", scalars="0", locals="3", arrays="4", procedures=queens,
                                         formula="all l0 0 3 some l1 0 3 and eq a0 l0 l1 all l2 0 sub l0 1 call 0 l2 a0 l2 l0 l1"))


# ---------------------------------------------------------------- cells with a range (document 02, Six)

def edition_3():
    """Edition 3 is edition 2 with that line and another division; where nothing negative is divided and ranges have all values, it lists the
    same."""
    for edition in ("1", "2"):
        case("edition %s with a line of ranges" % edition, lines(edition=edition, ranges="0:1"))
        case("edition %s with an empty line of ranges" % edition, lines(edition=edition, scalars="0", ranges=""))
    case("edition 3 without a line of ranges", lines(edition="3"))
    case("edition 3 without cells and without a line of ranges", lines(edition="3", scalars="0"))
    for edition in ("03", "3-", "-3", "33", "3x", "3 ", "4"):
        case("edition=%s, with ranges" % edition, lines(edition=edition, ranges="0:1"))
    def full(count):
        return ",".join([LOW + ":" + HIGH] * count)
    case("formula (1.1), edition 3", FORMULA_11.replace("edition=1", "edition=3").replace("given=", "ranges=%s\ngiven=" % full(2)))
    for name, count in (("beads", 5), ("call", 3), ("errors", 2)):
        sheet = (FILES.parent.parent / "sheets" / (name + ".sheet")).read_text()
        case(name + ", edition 3", re.sub("edition=.", "edition=3", sheet).replace("given=", "ranges=%s\ngiven=" % full(count)))
    formulas("""
eq v0 div -7 2
eq v0 mod -7 2
eq v0 quo 7 2
eq v0 rem 7 2
call 0 v0
call 1
eq p0 1
eq v1 1
ex l0 ex l0 true
some l0 8 1 true
""", edition="3", ranges="-9:9", procedures=["1:eq p0 9"])
    # as many pairs as there can be
    most = dict(edition="3", scalars="64", arrays=",".join("2" * 16))
    formula = "and eq v0 0 and eq v63 3 and eq a0 1 4 or eq a15 1 79 eq a15 1 9"
    pairs = ["%d:9" % (n % 10) for n in range(80)]
    case("80 ranges", lines(ranges=",".join(pairs), formula=formula, **most))
    case("79 ranges", lines(ranges=",".join(pairs[:79]), formula=formula, **most))
    case("81 ranges", lines(ranges=",".join(pairs + ["0:1"]), formula=formula, **most))
    case("80 ranges, the last one empty", lines(ranges=",".join(pairs[:79] + ["1:0"]), formula=formula, **most))
    case("80 ranges of all values", lines(ranges=full(80), formula="and eq v63 %s eq a15 1 %s" % (HIGH, LOW), **most))


def cell_ranges():
    """An `eq` that would give a cell a value outside its range fails."""
    least, most = int(LOW), int(HIGH)
    for low, high in ((0, 4), (4, 4), (0, 0), (-3, -3), (-1, 1), (least, least), (most, most), (least, most), (least, least + 1),
                      (most - 1, most), (least, -1), (1, most), (least, 0), (0, most)):
        near = sorted({n for end in (low, high) for n in (end - 1, end, end + 1) if least <= n <= most})
        formula = "or " + " or ".join("eq v0 %d" % n for n in near) + " eq v0 7"
        case("ranges=%d:%d, %s" % (low, high, formula), lines(edition="3", ranges="%d:%d" % (low, high), formula=formula))
    declared = dict(edition="3", scalars="3", locals="2", arrays="3", ranges="0:4,0:9,0:4,0:4", given="v1:5")
    # from either side, and what is computed; an error of the other side comes first; no other word gives a value
    formulas("""
eq v0 5
eq 5 v0
eq v0 4
eq v0 add 2 3
eq sub 2 3 v0
eq v0 v1
eq a0 2 v1
eq sub v1 1 a0 0
eq v0 v2
eq v0 div 1 0
eq v0 add 2147483647 1
eq v0 a0 5
eq a0 3 5
eq a0 v0 5
eq a0 v0 div 1 0
and eq v0 3 eq v0 5
and eq v0 5 eq v0 div 1 0
ne v0 5
lt v0 5
and eq v0 3 lt add v0 9 13
and eq v0 4 eq v2 add v0 1
and eq v0 4 eq v2 sub v0 4
eq v0 div -9 2
eq v0 mod 9 5
""", **declared)
    # a local has no range
    formulas("""
ex l0 eq l0 99
ex l0 and eq l0 99 eq v0 sub l0 95
ex l0 and eq l0 99 eq v0 l0
ex l0 and eq v0 5 eq l0 1
ex l0 and eq l0 v1 eq l0 5
some l0 98 99 eq v0 sub l0 94
all l0 99 99 eq v0 sub l0 95
""", **declared)
    # in the middle of `all`, `some`, `or` and `and`
    formulas("""
all l0 0 2 eq a0 l0 add 2 l0
all l0 0 2 eq a0 l0 add 3 l0
all l0 0 2 eq a0 l0 sub 1 l0
all l0 0 2 and eq a0 l0 add 3 l0 eq v0 div 1 0
some l0 3 6 eq v0 l0
some l0 -2 6 eq v0 l0
some l0 3 6 and eq v0 l0 eq v2 sub l0 3
some l0 0 6 and eq v0 l0 eq v2 sub l0 2
some l0 0 2 all l1 0 2 eq a0 l1 mul l0 add l1 1
all l0 0 2 some l1 4 5 eq a0 l0 l1
all l0 0 2 or eq a0 l0 add l0 3 eq a0 l0 l0
or all l0 0 2 eq a0 l0 add l0 3 eq v0 1
and or eq v0 4 eq v0 5 or eq v2 5 eq v2 4
and or and eq a0 0 4 eq a0 1 5 eq a0 1 4 eq a0 0 3
and some l0 4 5 eq v0 l0 some l1 4 5 eq v2 l1
""", **declared)


def ranges_inside():
    """The same in the trees of `not` and `imp`, where what was not given does not count as given."""
    declared = dict(edition="3", scalars="2", locals="2", arrays="2", ranges="0:4,0:4,0:4")
    formulas("""
not eq v0 5
not eq v0 4
not eq v0 -1
not eq 5 v0
not eq a0 1 5
not eq a0 1 4
not not eq v0 5
not not eq v0 4
and not eq v0 5 eq v0 3
and not eq v0 5 eq v0 5
and eq v0 3 not eq v1 5
and eq v0 3 not eq v1 3
not or eq v0 5 true
not or eq v0 5 eq v0 4
not or eq v0 5 eq v0 div 1 0
not and eq v0 5 eq v1 v1
not and eq v0 4 eq v1 5
not and eq v0 4 eq v0 5
not and not eq v0 5 true
not and not eq v0 5 eq v1 1
not ex l0 eq l0 5
not ex l0 and eq l0 5 eq v0 l0
not ex l0 and eq l0 4 eq v0 l0
ex l0 not eq l0 5
ex l0 and eq l0 5 not eq v0 l0
not some l0 5 9 eq v0 l0
not some l0 4 9 eq v0 l0
not some l0 5 9 or eq v0 l0 eq l0 9
not all l0 0 1 eq a0 l0 add l0 4
not all l0 0 1 eq a0 l0 add l0 3
not all l0 5 sub 5 1 eq v0 5
imp eq v0 5 eq v1 1
imp eq v0 4 eq v1 1
imp true eq v0 5
imp true eq v0 4
imp not eq v0 5 eq v0 3
not imp true eq v0 5
not imp true eq v0 4
not imp eq v0 5 eq v1 1
imp imp eq v0 5 eq v1 1 eq v1 2
imp imp true eq v0 5 eq v1 1
some l0 3 6 not eq v0 l0
all l0 5 6 not eq v0 l0
""", **declared)
    formulas("not " * 30 + "eq v0 5", **declared)


def ranges_called():
    """The same through parameters: a scalar, an element or a local that is passed in."""
    declared = dict(edition="3", scalars="2", locals="3", arrays="2,3", ranges="0:4,5:6,7:8,0:9")
    formulas("""
call 0 v0 5
call 0 v0 4
call 0 5 v0
call 0 v1 6
call 0 a0 1 9
call 0 a0 1 8
call 0 9 a1 2
call 0 v0 v1
call 0 v0 div 1 0
call 1 v0 5
call 1 a0 0 6
call 1 a0 0 7
call 1 sub 5 6 a1 0
call 2 v0
call 2 v1
call 2 a0 1
call 2 a1 0
ex l2 and call 0 l2 5 call 0 v0 l2
ex l2 and call 1 l2 99 eq v0 sub l2 96
not call 0 v0 5
not call 0 v0 4
not call 1 a1 1 -1
not ex l2 call 1 l2 99
imp call 1 v0 9 call 0 v1 6
some l2 3 6 call 1 v0 l2
all l2 0 2 call 1 a1 l2 add l2 7
all l2 0 2 call 1 a1 l2 add l2 8
and call 0 v0 4 call 1 v1 add v0 3
""", procedures=["2:eq p0 p1", "2:call 0 p1 p0", "1:or call 1 p0 5 call 1 p0 8"], **declared)
    libraries("""
1:eq v0 p0
or call 0 5 call 0 4

1:eq a0 p0 8
some l2 0 2 call 0 l2

1:eq a1 p0 add 8 p0
all l2 0 2 call 0 l2

1:not eq p0 5
call 0 v0

1:not eq p0 5
call 0 v1

1:not eq p0 5
ex l2 call 0 l2

1:imp eq p0 5 eq v1 6
call 0 v0

1:ex l0 and eq l0 p0 eq v0 l0
or call 0 5 call 0 4

1:ex l0 and eq p0 5 eq l0 1
call 0 v0

1:some l0 3 6 eq p0 l0
1:call 0 p0
1:and call 1 p0 call 0 v0
call 2 v0

2:and eq p0 4 eq p1 4
call 0 v0 v0

2:and eq p0 4 eq p1 4
call 0 v0 v1

2:and eq p0 4 eq p1 8
call 0 v0 a0 sub v0 3

1:eq p0 5
1:or call 0 p0 eq p0 3
not call 1 v0
""", **declared)


def ranges_of_arrays():
    """Every element has its array's range: the first and the last of each, and what the cells beside them may have."""
    declared = dict(edition="3", scalars="2", locals="1", arrays="1,2,3", ranges="0:9,10:19,20:29,30:39,40:49")
    for cell in ("v0", "v1", "a0 0", "a1 0", "a1 1", "a2 0", "a2 1", "a2 2"):
        atoms = ["eq %s %d" % (cell, value) for value in (-1, 0, 9, 10, 19, 20, 29, 30, 39, 40, 49)]
        formulas("or " + " or ".join(atoms) + " eq %s 50" % cell, **declared)
    formulas("""
all l0 0 2 eq a2 l0 add 40 l0
some l0 -1 3 eq a2 l0 45
some l0 0 2 eq a1 l0 25
and eq v0 1 eq a1 v0 30
and eq v0 1 eq a1 v0 39
and eq v0 1 eq a1 sub v0 1 29
all l0 0 1 and eq a1 l0 add 30 l0 eq a2 l0 add 9 a1 l0
""", **declared)
    givens("a0.0:20,a1.0:30,a1.1:39,a2.0:40,a2.2:49\na0.0:30\na1.0:29\na1.1:40\na2.0:39\na2.2:50\nv1:19,a0.0:19", **declared)
    # 512 cells
    lengths = [32] * 15 + [31]
    pairs = ["7:8"] + ["%d:%d" % (10 * n, 10 * n + 1) for n in range(16)]
    ends = [(n, e, 10 * n + (e > 0)) for n, length in enumerate(lengths) for e in (0, length - 1)]
    whole = dict(edition="3", arrays=",".join(map(str, lengths)), ranges=",".join(pairs))
    case("the first and the last element of 16 arrays", lines(formula=conjunction(["eq a%d %d %d" % end for end in ends]), **whole))
    case("the same given", lines(given=",".join("a%d.%d:%d" % end for end in ends), **whole))
    formulas("some l0 149 152 eq a15 30 l0\nsome l0 0 31 eq a14 l0 142\nsome l0 29 31 eq a15 l0 151", **whole)
    whole = dict(edition="3", scalars="0", arrays="512", ranges="-1:1")
    formulas("and eq a0 511 1 eq a0 0 -1\nor eq a0 511 2 eq a0 0 -2", **whole)


def ranges_given():
    """13, at the item: after 4, 5, 7 and 10, before the byte after it."""
    givens("""
v0:0
v0:4
v0:-1
v0:5
v0:2147483647
v0:-2147483648
v0:2147483648
v0:00
v0:5x
v0:5,
v0:5,v1
v0:4x
v0:4,v1:10,a0.0:-5,a0.1:5
v0:4,v1:9
v0:4,v1:15
v0:4,v1:4
v0:4,v0:5
v0:4,v0:5x
v1:10,v0:5
v1:9,v0:5
v2:99
v2:99x
a0.0:6
a0.1:-6
a0.0:5,a0.1:6
a0.1:5,a0.1:6
a0.1:6,a0.0:6
a0.2:6
a1.0:6
""", edition="3", scalars="2", arrays="2", ranges="0:4,10:14,-5:5")
    for pair, values in ((LOW + ":" + LOW, (LOW, "-2147483647", HIGH)), (HIGH + ":" + HIGH, (HIGH, "2147483646", LOW)),
                         (LOW + ":" + HIGH, (LOW, HIGH)), ("0:0", ("-1", "0", "1"))):
        for value in values:
            case("v0:%s in %s" % (value, pair), lines(edition="3", ranges=pair, given="v0:" + value))
    good = lines(edition="3", ranges="0:4", given="v0:5")
    for k in range(good.index("v0:5"), good.index("v0:5") + 5):
        case("a given value outside its range, cut to %d bytes" % k, good[:k])
    formulas("eq v0 5\neq v0 4\nnot eq v0 5\nnot eq v0 4\nlt v0 5", edition="3", ranges="0:4", given="v0:4")


def range_lines():
    """The line of ranges: its key, its numbers, the byte after each; 14 once the second number is read."""
    for value in ("", "0", "0:", ":1", "0:1", "1:1", "1:0", "1:0x", "1:0,", "1:", "1:x", "1:00", "1:0-", "1:2147483648", "0:1x", "0:1,",
                  "0:1,0:1", "0:1 ", "0:1:2", "0:1-", "0:1\r", "0::1", "0;1", "0,1", "0 :1", "0: 1", " 0:1", ",0:1", "00:1", "-0:1", "0:-0",
                  "0:01", "--1:1", "0:-", "1-:1", "0:+1", "x", "v0:1", "-1:0", "-2:-1", "-1:-2", "0:-1", HIGH + ":2147483648",
                  "2147483648:" + HIGH, "-2147483649:0", "0:-2147483649", LOW + ":" + HIGH, HIGH + ":" + LOW, "4294967295:0",
                  "0:4294967296", "0:" + "1" * 99, "-" * 99 + ":0"):
        case("ranges=%r" % value, lines(edition="3", ranges=value))
    for value in ("", ",", "0:1", "1:0", "x"):
        case("no cells, ranges=%r" % value, lines(edition="3", scalars="0", ranges=value))
    for value in ("", "0:1", "0:1,", "0:1,0", "0:1,0:1", "0:1,0:1,", "0:1,,0:1", "0:1, 0:1", "0:1,0:1,0:1", "0:1,0:1,0:1,",
                  "0:1,0:1,0:1,0:1", "0:1,0:1,1:0", "0:1,1:0,1:0", "0:1,1:0", "1:0,x", "0:1,0:1,x", "0:1,0:1,0:1x", "0:1;0:1,0:1",
                  "0:1,00:1,0:1", "0:1,0:01,0:1", "0:1\n0:1,0:1"):
        case("two scalars and an array, ranges=%r" % value, lines(edition="3", scalars="2", arrays="3", ranges=value))
    for scalars, arrays, value in (("0", "3", "0:1"), ("0", "3", "0:1,0:1"), ("0", "3", ""), ("0", "3,3", "0:1"), ("0", "3,3", "0:1,2:3"),
                                   ("2", "", "0:1,2:3"), ("2", "", "0:1"), ("2", "", "0:1,2:3,4:5")):
        formula = "or eq a0 2 1 eq a0 2 2" if arrays else "or eq v1 1 eq v1 2"
        case("scalars=%s, arrays=%s, ranges=%s" % (scalars, arrays, value), lines("3", scalars, "1", arrays, value, formula=formula))
    good = lines(edition="3", scalars="1", arrays="2", ranges="-1:0,12:34")
    case("whole, with ranges", good)
    for k in range(good.index("ranges="), good.index("given=") + 1):
        case("cut to %d bytes" % k, good[:k])
    for k in range(good.index("s=-"), good.index("given=")):
        case("byte %d an x" % k, good[:k] + "x" + good[k + 1:])
    rows = good.split("\n")[:-1]
    for row in ("", "ranges", "Ranges=-1:0,12:34", "range=-1:0,12:34", "ranges =-1:0,12:34", "given=", "formula=true"):
        case("%r for the line of ranges" % row, "".join(line + "\n" for line in rows[:4] + [row] + rows[5:]))
    others = rows[:4] + rows[5:]
    for at in (0, 3, 5, 6):
        case("the line of ranges after %d others" % at, "".join(line + "\n" for line in others[:at] + [rows[4]] + others[at:]))
    case("the line of ranges twice", good.replace("given=", rows[4] + "\ngiven="))


def ranges_cut():
    """Where a run is ended at such a failure leaf, before it or after it, and where blocks are skipped."""
    sheet = lines(edition="3", ranges="0:4", formula="or eq v0 5 or and not eq v0 5 eq v0 1 some l0 3 5 eq v0 l0")
    case("a run with ranges", sheet)
    for path in range(1, 8):
        case("the same under path limit %d" % path, sheet, path=path)
    for budget in (2, 3, 4, 6, 7, 8, 9, 10, 11, 19, 20):
        case("the same under budget %d" % budget, sheet, budget=budget)
    for output, skip in ((0, 0), (13, 0), (28, 0), (41, 0), (14, 1), (0, 3)):
        case("the same in %d bytes after a skip of %d" % (output, skip), sheet, output=output, skip=skip)


# ---------------------------------------------------------------- division

FULL = LOW + ":" + HIGH


def disjunction(atoms):
    return conjunction(atoms).replace("and ", "or ")


def divisions():
    """`div` and `mod` of each edition, `quo` and `rem` of edition 3: as tables, and in every place where a term can stand."""
    for edition, pair in (("1", ("div", "mod")), ("2", ("div", "mod")), ("3", ("div", "mod")), ("3", ("quo", "rem"))):
        ranges = {"ranges": FULL} if edition == "3" else {}
        # both signs of both operands, by 0 too
        table = "some l0 -7 7 some l1 -3 3 and eq a0 0 l0 and eq a0 1 l1 or eq a0 2 %s l0 l1 eq a0 3 %s l0 l1" % pair
        case("%s and %s of edition %s" % (*pair, edition), lines(edition=edition, scalars="0", locals="2", arrays="4", formula=table, **ranges),
             output=65536)
        # the ends of 32 bits
        least, most = int(LOW), int(HIGH)
        numbers = (least, least + 1, -12, -1, 0, 1, 12, most - 1, most)
        for word in pair:
            atoms = ["eq v0 %s %d %d" % (word, a, b) for a in numbers for b in numbers]
            case("%s of edition %s, the ends" % (word, edition), lines(edition=edition, formula=disjunction(atoms), **ranges), output=65536)
    for edition in ("1", "2", "3"):
        formulas("""
eq v0 quo 7 2
eq v0 rem 7 2
eq v0 quo -7 2
eq v0 rem -7 2
eq v0 div 7
eq v0 mod 7 2 1
quo 7 2
rem
ex quo true
eq v0 quo
eq v0 quot 7 2
eq v0 remx 7 2
eq v0 re 7 2
eq v0 QUO 7 2
eq v0 Rem 7 2
eq v0 q0
eq v0 r0
""", edition=edition, ranges=FULL if edition == "3" else None)
    formulas("""
eq v0 div -7 2
eq v0 mod -7 2
eq v0 mod -1 12
eq v0 div -1 12
eq v0 mod 12 12
eq v0 mod 1 -12
eq v0 div mod -7 2 div -7 2
eq v0 quo rem -7 2 quo -7 2
eq v0 add mul 2 div -7 2 mod -7 2
eq v0 add mul 2 quo -7 2 rem -7 2
eq v0 mod v0 12
eq v0 mod 12 v0
eq v0 div div 1 0 v0
eq v0 div v0 div 1 0
eq v0 mod mul 65536 65536 0
eq v0 div -2147483648 -1
eq v0 mod -2147483648 -1
eq v0 quo -2147483648 -1
eq v0 rem -2147483648 -1
or eq v0 div 1 0 or eq v0 mod 1 0 or eq v0 quo 1 0 or eq v0 rem 1 0 eq v0 1
some l0 div -7 2 quo -7 2 eq v0 l0
all l0 div -7 2 quo -7 2 lt l0 0
all l0 0 11 le 0 mod sub l0 1 12
some l0 -12 12 and ne mod l0 5 rem l0 5 eq v0 l0
some l0 -12 12 and ne div l0 -5 quo l0 -5 eq v0 l0
eq a0 mod -1 3 5
eq a0 rem -1 3 5
eq 2 a0 div -1 3
eq v0 a0 mod -2 3
not eq 11 mod -1 12
not eq -1 rem -1 12
imp eq -4 div -7 2 eq v0 1
imp eq -3 div -7 2 eq v0 1
ex l0 and eq l0 mod -1 12 eq v0 l0
and eq v0 -7 lt quo v0 2 0
and eq v0 -7 and gt 0 div v0 2 ne div v0 2 quo v0 2
""", edition="3", arrays="3", ranges="%s,%s" % (FULL, FULL))
    libraries("""
2:eq p0 mod sub p1 1 12
call 0 v0 0

2:eq p0 rem sub p1 1 12
call 0 v0 0

1:eq v0 p0
call 0 mod -1 12

1:eq v0 p0
call 0 div v1 2

2:and eq v0 p0 eq v1 p1
1:call 0 div p0 2 mod p0 2
call 1 -7

2:and eq v0 p0 eq v1 p1
1:call 0 quo p0 2 rem p0 2
call 1 -7

1:and eq v1 -7 eq v0 p0
call 0 div v1 2

1:and eq v1 0 eq v0 p0
call 0 mod 7 v1

1:not eq p0 -4
and call 0 quo -7 2 eq v0 1
""", edition="3", scalars="2", ranges="%s,%s" % (FULL, FULL))
    # a value outside its cell's range fails, whichever way it was rounded
    formulas("""
eq v0 mod -1 12
eq v0 rem -1 12
or eq v0 rem -1 12 eq v0 mod -1 12
not eq v0 rem -1 12
not eq v0 mod -1 12
""", edition="3", ranges="0:11")


# ---------------------------------------------------------------- empty ranges (document 02, Nine)

def empty_ranges():
    """17 in edition 3: both bounds constants where they stand, the lower above the upper. Editions 1 and 2 go on."""
    for edition in ("1", "2", "3"):
        formulas("""
some l0 8 1 true
all l0 8 1 eq v0 1
or some l0 2 1 true eq v0 7
and all l0 2 1 true eq v0 7
""", edition=edition, ranges="0:9" if edition == "3" else None)
    for word, low, high in (("some", 1, 1), ("all", 1, 1), ("some", 1, 2), ("some", 0, -1), ("all", -1, -1), ("some", -1, -2), ("all", -1, -2),
                            ("some", -2, -1), ("all", 10, 9), ("some", LOW, LOW), ("all", "-2147483647", LOW), ("some", "-2147483647", LOW),
                            ("all", HIGH, HIGH), ("some", HIGH, "2147483646"), ("all", "2147483646", HIGH), ("some", HIGH, LOW)):
        formulas("%s l0 %s %s true" % (word, low, high), edition="3", scalars="0", ranges="")
    declared = dict(edition="3", locals="2", arrays="2", ranges="0:9,0:9")
    # where it stands, and bounds that are no constants
    formulas("""
not some l0 8 1 true
imp all l0 8 1 true eq v0 1
imp eq v0 1 some l0 8 1 true
ex l0 some l1 8 1 eq l0 l1
some l0 1 8 all l1 8 1 true
some l0 8 1 some l1 8 1 true
and some l0 8 v0 true some l1 8 1 true
some l0 add 8 0 1 true
all l0 8 sub 1 0 eq 1 2
all l0 a0 8 1 true
and eq v0 8 some l0 v0 1 true
and eq a0 1 0 all l0 8 a0 1 eq 1 2
some l0 8 div 2 2 true
some l0 3 4 all l1 8 l0 true
""", **declared)
    # after the upper bound's 9 and 4, before the byte after it
    formulas("""
some l0 8 1
some l0 8 1 
some l0 8 1  true
some l0 8 1x true
all l0 8 1- true
all l0 8 01 true
all l0 8 -0 true
all l0 8 2147483648 true
some l0 2147483648 1 true
some l0 8 
some l0 8 x true
some l0 8 v1 true
some l0 8 l0 true
some l0 8 1 x
some l0 8 1 eq v1 1
some l0 8 1 ex l0 true
some l0 8 1 true true
some l2 8 1 true
some v0 8 1 true
ex l0 some l0 8 1 true
and x some l0 8 1 true
and some l0 8 1 true x
""", **declared)
    good = lines(edition="3", scalars="0", ranges="", formula="some l0 8 12 true")
    for k in range(good.index(" 12"), good.index(" true") + 1):
        case("an upper bound 12, cut to %d bytes" % k, good[:k])
    formulas("not " * 63 + "some l0 8 1 true", **declared)
    # procedures: a parameter is no constant, whatever a call puts in its place
    libraries("""
2:some l0 p0 p1 true
call 0 8 1

2:all l0 p0 p1 eq 1 2
call 0 8 1

1:some l0 8 p0 true
call 0 1

1:some l0 p0 1 true
1:call 0 p0
or call 1 8 call 1 0

0:some l0 8 1 true
true

1:true
1:and eq p0 1 all l0 8 1 eq p0 2
call 0 v0

0:some l0 8 1 true
call 1

0:call 0
some l0 8 1 true

1:some l0 8 p1 true
true

1:some l0 8 1 eq p1 1
true
""", **declared)
    case("13, before it", lines(edition="3", ranges="0:4", given="v0:5", formula="some l0 8 1 true"))
    case("14, before it", lines(edition="3", ranges="4:0", formula="some l0 8 1 true"))


# ---------------------------------------------------------------- damaged sheets

def damaged():
    good = lines(scalars="2", locals="1", arrays="2,3", given="v0:7,a0.1:-1", formula="ex l0 and eq v1 l0 true")
    case("whole", good)
    for k in range(len(good)):
        case("cut to %d bytes" % k, good[:k])
    for k in range(len(good)):
        case("byte %d an x" % k, good[:k] + "x" + good[k + 1:])
    rows = good.split("\n")[:-1]
    for k, row in enumerate(rows):
        def instead(new):
            return "".join(line + "\n" for line in rows[:k] + new + rows[k + 1:])
        key, value = row.split("=")
        case("no line %d" % k, instead([]))
        case("line %d twice" % k, instead([row, row]))
        case("line %d empty" % k, instead([""]))
        case("line %d without its value" % k, instead([key + "="]))
        case("line %d without its equals sign" % k, instead([key + value]))
        case("line %d with a capital" % k, instead([row.capitalize()]))
        for mark in (" ", ",", ":", ".", "=", "-", "\r", "\t", "\x00", "a", "0"):
            case("line %d with %r after it" % (k, mark), instead([row + mark]))
            case("line %d with %r before its value" % (k, mark), instead([key + "=" + mark + value]))
        case("line %d with byte 255 after it" % k, instead([row]).encode().replace(row.encode() + b"\n", row.encode() + b"\xff\n"))
    for number in ("00", "01", "-0", "-1", "--1", "-", "+1", "1-", "2", "99999999999999999999", "4294967297", "1" * 4000):
        case("edition=%.8s" % number, lines(edition=number))
        case("scalars=%.8s" % number, lines(scalars=number))
        case("locals=%.8s" % number, lines(locals=number))
        case("arrays=%.8s" % number, lines(arrays=number))
    for number in ("00", "01", "-0", "-", "--1", "+1", "1-", "2147483647", "2147483648", LOW, "-2147483649", "1" * 3900):
        case("given=v0:%.12s" % number, lines(given="v0:" + number))
        case("given=v%.12s:1" % number, lines(given="v%s:1" % number))
        case("given=a0.%.12s:1" % number, lines(arrays="2", given="a0.%s:1" % number))
        case("given=a%.12s.0:1" % number, lines(arrays="2", given="a%s.0:1" % number))
        case("eq v0 %.12s" % number, lines(formula="eq v0 " + number))
        case("eq v%.12s 1" % number, lines(formula="eq v%s 1" % number))
        case("eq a%.12s 0 1" % number, lines(formula="eq a%s 0 1" % number, arrays="2"))
        case("ex l%.12s true" % number, lines(formula="ex l%s true" % number))
    givens("v0:1,\nv0:1,,v1:1\nv0:1 \nv0 :1\nv0\nv0:\nv0:1v1:1\nv0:1,v0:1\nv1:1,v0:1\nv2:1\nv2:1,v0:\na0:1\na0.0\na0.0:1\nl0:1\nV0:1\nv0:1,v1:2x", scalars="2")
    formulas("""
 true
true 
and  true true
and true true 
x
eq
eq 
eq 1
eq 1 
eq 1 1 1
eq true 1
eq 1 true
true true
add 1 1
not
not 1
not v0
not l0
and 1 true
v0
l0
a0
ex
ex 1 true
ex l0
ex l0 1
ex v0 true
ex true true
ex eq true
ex l0 eq l0 1 
ex l0 and true ex l0 true
and ex l0 true ex l0 true
and ex l0 true eq l0 1
or eq l0 1 ex l0 true
some l0 1 true
some l0 true 1 true
some l0 l0 1 true
all l0 1 l0 true
all l0 1 2 eq l1 1
eq v1 1
eq V0 1
eq v 1
eq l 1
eq v0x 1
eq v0.0 1
eq 1x 1
eq 1.0 1
eq trUe 1
TRUE
tru
truee
andtrue true
eq v0, 1
eq 2147483648 true
not 00
""")
    for n in (0, 1, 4096, 4097):
        case("%d zero bytes" % n, b"\0" * n)
    case("all byte values", bytes(range(256)))
    case("all byte values in a token", lines(formula="").encode()[:-1] + bytes(b for b in range(256) if b not in (10, 32)) + b"\n")
    for b in (0, 9, 11, 13, 31, 33, 47, 58, 64, 91, 96, 123, 127, 128, 160, 255):
        case("byte %d in a token" % b, lines(formula="eq v0 1").encode().replace(b"v0", b"v" + bytes([b])))
        case("byte %d for a space" % b, lines(formula="eq v0 1").encode().replace(b" 1", bytes([b]) + b"1"))
    case("only a line feed", "\n")
    case("4,096 line feeds", "\n" * 4096)
    case("a run of 4,000 digits", "1" * 4000)
    case("a run of 4,000 minus signs", lines(scalars="-" * 4000))
    case("a token of 4,000 letters", lines(formula="t" * 4000))


# ---------------------------------------------------------------- the sheets that teach

def taught():
    for file in sorted((FILES.parent.parent / "sheets").glob("*.sheet")):
        case("sheets/" + file.name, file.read_bytes())


# ---------------------------------------------------------------- listings in parts

def in_parts(name, sheet, sizes, **setting):
    """The parts of a listing, each with an output of its own, and the whole of it with just enough, one byte less and more; the parts joined
    are the whole."""
    joined, skip = b"", 0
    for size in sizes:
        case("%s, past %d" % (name, skip), sheet, skip=skip, output=size, **setting)
        part = walker.outcome(walker.pages([cases[-1][1]])[0])
        joined, skip = joined + part.listing, part.answers + part.errors
    for size in (len(joined) - 1, len(joined), 65536):
        case("%s, the whole in %d bytes" % (name, size), sheet, output=size, **setting)
    whole = walker.outcome(walker.pages([cases[-1][1]])[0])
    assert part.end != "output" and whole == part._replace(listing=joined), name


def parts():
    queens = (FILES.parent.parent / "sheets/queens8.sheet").read_bytes()
    in_parts("eight queens", queens, (4096, 4096))
    in_parts("eight queens, outputs that differ", queens, (700, 66, 4096, 131, 4096))
    in_parts("eight queens, spent", queens, (1000, 4096), budget=100000)
    case("eight queens, a larger budget", queens, output=1000)
    case("eight queens, no room for the next", queens, skip=9, output=65)
    case("eight queens, room for the next", queens, skip=9, output=66)
    mixed = lines(formula="or eq v0 div 1 0 or eq v0 3 or lt v0 1 or eq v0 4 eq v0 mod 1 0")
    in_parts("errors among answers", mixed, (23, 14, 23, 14, 23))
    in_parts("errors among answers, two at a time", mixed, (40, 40, 40))
    in_parts("errors among answers, path", mixed, (23, 37), path=6)
    long = lines(scalars="3", formula="or and eq v0 1 and eq v1 2 eq v2 3 or true or true eq v0 4")
    in_parts("a long block first", long, (24, 9, 9, 14))
    case("a long block that is skipped", long, skip=1, output=9)


# ---------------------------------------------------------------- random cases

def drawn(edition):
    """Random and damaged sheets of an edition under random settings."""
    rng = random.Random(20010 + edition)
    for _ in range(RANDOM[edition]):
        path = rng.choice((1, 2, 3, 5, 8, 13, 40, 512, 512, 512, 3000))
        budget = rng.choice((0, 1, 5, 20, 100, 1000, 5000, 5000))
        skip = rng.choice((0, 0, 0, 1, 2, 7, 100))
        output = rng.choice((0, 9, 30, 100, 1000, 4096, 4096))
        words = walker.words_for(path) - (rng.random() < 0.03) + rng.choice((0, 0, 1, 77))
        yield walker.Case(random_sheets.drawn(rng, (edition,)), path, budget, skip, output, words)


def stored():
    return walker.unpacked((FILES / "stdin").read_bytes())[-sum(RANDOM.values()):]


# ---------------------------------------------------------------- the files

def main():
    parser = argparse.ArgumentParser()
    parser.add_argument("--random", action="store_true")
    parser.add_argument("--list", action="store_true")
    given = parser.parse_args()
    for group in (marked, readings, slips, declared_limits, text_limits, lent_limits, kinds, words, inner_trees, negations, negations_cut,
                  damaged, taught, editions, calls, arguments, bound_anew, inner_calls, call_numbers, parameter_names, local_binders,
                  procedure_lines, procedure_limits, many_uses, procedures_cut, edition_3, cell_ranges, ranges_inside, ranges_called,
                  ranges_of_arrays, ranges_given, range_lines, ranges_cut, parts, divisions, empty_ranges):
        group()
    for number, drawn_case in enumerate([*drawn(1), *drawn(2), *drawn(3)] if given.random else stored()):
        cases.append(("random %d" % (number + 1), drawn_case))
    if given.list:
        for number, (name, listed) in enumerate(cases):
            print(number + 1, repr(name)[1:-1], "| path %d budget %d skip %d output %d words %d" % listed[1:])
        return
    all_cases = [c for _, c in cases]
    stdin = walker.packed(all_cases)
    if len(stdin) > MOST:
        raise SystemExit("the cases are %d bytes, the program reads %d" % (len(stdin), MOST))
    (FILES / "stdin").write_bytes(stdin)
    (FILES / "stdout").write_bytes(walker.printed(all_cases))


if __name__ == "__main__":
    main()
