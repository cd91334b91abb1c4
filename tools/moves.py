"""The reference reading of document 02, Eight and Nine: a sheet of edition 2 in edition 3, the way back, and the pass over sheets of edition 3.

A case is a way, `up`, `down` or `tidy`, the numbers of work words and output bytes that are lent, and a sheet. Whether the sheet is refused for
itself is asked of the walker (walker.py), which runs it with a budget of no nodes; all else is read here off the sheet's bytes, line by line.
"""
import re
from collections import namedtuple

import random_sheets
import walker

Case = namedtuple("Case", "way words output sheet")
Moved = namedtuple("Moved", "refused place text")       # number and place or 0 and 0, and the moved sheet or nothing
WORDS, LONGEST = 6144, 4096                             # the fewest work words, and the bytes of the longest sheet and the smallest output
EDITIONS = {"up": b"2", "down": b"3", "tidy": b"3"}     # the edition that is moved
WAYS = tuple(EDITIONS)
FULL = b"-2147483648:2147483647"
RENAMED = {"up": {b"div": b"quo", b"mod": b"rem"}, "down": {b"quo": b"div", b"rem": b"mod"}, "tidy": {}}
WRITTEN = {b"some": [b"eq", b"0", b"1"], b"all": [b"true"]}                     # for an empty range
OPERANDS = {b"true": 0, b"not": 1, b"ex": 2, b"some": 4, b"all": 4}             # of the words that have not two
RANGES = 4                                              # the number of the line of ranges
SLIPS = {"up": 0.6, "down": 0.1, "tidy": 0.6}           # the share of random sheets that have empty ranges


def moved(cases):
    """What is due for each case."""
    asked = [walker.Case(case.sheet, 1, 0, 0, 0, walker.words_for(1)) for case in cases]
    readings = zip(walker.pages(asked), walker.pages(asked, walker.EMPTY_RANGES))
    return [one(case, walker.outcome(pages[case.way == "tidy"])) for case, pages in zip(cases, readings)]


def one(case, reading):
    number, place = refusal(case, reading)
    if number:
        return Moved(number, place, b"")
    text = {"up": raised, "down": lowered, "tidy": tidied}[case.way](case.sheet)
    return Moved(0, 0, text) if len(text) <= LONGEST else Moved(2, LONGEST, b"")


def followed(case, due):
    """After a sheet that was moved the way back, which gives the first sheet; or the pass, which changes nothing, if that had an empty range or
    was passed. The case, and what is due."""
    if case.way == "tidy" or has_empty(case.sheet):
        return case._replace(way="tidy", sheet=due.text), due
    return case._replace(way="down" if case.way == "up" else "up", sheet=due.text), Moved(0, 0, case.sheet)


def refusal(case, reading):
    """The refusal's number and place, or 0 twice; that of a moved sheet that is too long is not looked for."""
    if case.output < LONGEST or case.words < WORDS:
        return 1, 0
    if len(case.sheet) <= LONGEST and another_edition(case):
        return 4, len(b"edition=")
    if reading.refused:
        return reading.refused, reading.place
    if case.way == "down":
        for number, places in ((15, narrow(case.sheet)), (16, rounding(case.sheet))):
            if places:
                return number, places[0]
    return 0, 0


def another_edition(case):
    """Whether the sheet names an edition that there is, but not the one that is moved; a number in bad form, or of no edition, is 4 for itself."""
    named = re.match(rb"edition=([123])(?![-0-9])", case.sheet)
    return named is not None and named[1] != EDITIONS[case.way]


# ---------------------------------------------------------------- a sheet that is not refused for itself: its lines, with their places

def rows(sheet):
    """Each line without its line feed, and the place where it begins."""
    place = 0
    for row in sheet.split(b"\n")[:-1]:
        yield place, row
        place += len(row) + 1


def items(place, row, after, between):
    """What stands in a line after its last `after`, each with its place."""
    at = row.rindex(after) + 1
    for item in row[at:].split(between):
        yield place + at, item
        at += len(item) + 1


def narrow(sheet):
    """The places of the ranges that are not all of 32 bits."""
    place, row = list(rows(sheet))[RANGES]
    return [at for at, pair in items(place, row, b"=", b",") if pair not in (b"", FULL)]


def has_formula(row):
    return row.startswith((b"proc=", b"formula="))


def formula_mark(row):
    """What stands before a line's formula."""
    return b":" if row.startswith(b"proc=") else b"="


def rounding(sheet):
    """The places of the words that round down."""
    formulas = [(place, row) for place, row in rows(sheet) if has_formula(row)]
    return [at for place, row in formulas for at, word in items(place, row, formula_mark(row), b" ") if word in (b"div", b"mod")]


# ---------------------------------------------------------------- the moved bytes

def operands(words, at, parameters):
    """How many operands the word at a place has, where these are the numbers of parameters of the procedures."""
    word = words[at]
    if word == b"call":
        return 1 + parameters[int(words[at + 1])]
    if is_constant(word) or re.fullmatch(rb"[vlp][0-9]+", word):
        return 0
    return 1 if re.fullmatch(rb"a[0-9]+", word) else OPERANDS.get(word, 2)


def is_constant(word):
    return word[:1] in b"-0123456789"


def is_empty(words):
    """Whether these are a quantifier, its local and two constants, the lower above the upper."""
    return words[0] in WRITTEN and all(map(is_constant, words[2:4])) and int(words[2]) > int(words[3])


def without_empty(words, parameters):
    """A formula's words, with what is written for it in place of each quantifier with an empty range and its body."""
    written, at = [], 0
    while at < len(words):
        if is_empty(words[at:at + 4]):
            written += WRITTEN[words[at]]
            due = 1
            while due:
                due += operands(words, at, parameters) - 1
                at += 1
        else:
            written.append(words[at])
            at += 1
    return written


def rewritten(rows, way):
    """The lines, with formulas in the words of the other edition and, unless they go down, without empty ranges."""
    parameters = [int(row[len(b"proc="):row.index(b":")]) for row in rows if row.startswith(b"proc=")]
    for row in rows:
        if has_formula(row):
            key, words = row[:row.index(formula_mark(row)) + 1], [word for _, word in items(0, row, formula_mark(row), b" ")]
            words = words if way == "down" else without_empty(words, parameters)
            row = key + b" ".join(RENAMED[way].get(word, word) for word in words)
        yield row


def raised(sheet):
    edition, scalars, locals, arrays, *rest = [row for _, row in rows(sheet)]
    count = int(scalars.split(b"=")[1]) + len([length for length in arrays.split(b"=")[1].split(b",") if length])
    ranges = b"ranges=" + b",".join([FULL] * count)
    return joined([b"edition=3", scalars, locals, arrays, ranges, *rewritten(rest, "up")])


def lowered(sheet):
    edition, scalars, locals, arrays, ranges, *rest = [row for _, row in rows(sheet)]
    return joined([b"edition=2", scalars, locals, arrays, *rewritten(rest, "down")])


def tidied(sheet):
    return joined(rewritten([row for _, row in rows(sheet)], "tidy"))


def has_empty(sheet):
    return tidied(sheet) != sheet


def joined(rows):
    return b"".join(row + b"\n" for row in rows)


# ---------------------------------------------------------------- random cases

def drawn(rng):
    """A sheet for one of the ways: mostly of the edition that is moved, often with empty ranges, and enough memory for it."""
    way = rng.choice(WAYS)
    edition = int(EDITIONS[way])
    x = rng.random()
    if x < 0.06:
        sheet = random_sheets.drawn(rng)
    elif x < 0.12:
        sheet = at_limit(rng, way)
    elif x < 0.15:
        sheet = many_ranges(rng, way)
    else:
        sheet = random_sheets.drawn(rng, (edition,), SLIPS[way])
    if way == "down":
        sheet = fuller(rng, sheet)
    return with_memory(rng, way, sheet)


def with_memory(rng, way, sheet):
    """In one case of twelve too little memory, or just so much."""
    if rng.random() < 0.92:
        return Case(way, WORDS + rng.choice((0, 0, 1, 56)), LONGEST + rng.choice((0, 0, 1, 200)), sheet)
    return Case(way, rng.choice((0, 1, 6143, 6143, 6144, 6200)), rng.choice((0, 1, len(sheet), 4095, 4095, 4096, 4097)), sheet)


def at_limit(rng, way):
    """A sheet of the edition that is moved: it has about 4,096 bytes, on the way up once it is moved, of two such sheets one with an empty range."""
    scalars, arrays = rng.choice((0, 1, 20, 40)), [rng.randint(1, 4) for _ in range(rng.choice((0, 1, 8)))]
    ranges = [random_sheets.ALL] * (scalars + len(arrays))
    slip, written = rng.choice((("", ""), ("", ""), ("and some l0 1 0 true ", "and eq 0 1 "), ("and all l0 9 -1 eq l0 1 ", "and true ")))
    more = rng.choice((-1, 0, 0, 1)) - len(written if way == "up" else slip)
    sheet = random_sheets.many_bytes(rng, more, scalars=scalars, arrays=arrays, edition=3, ranges=ranges)
    sheet = sheet.replace(b"\nformula=", b"\nformula=" + slip.encode())
    return lowered(sheet) if way == "up" else sheet


def many_ranges(rng, way):
    """As many scalars or arrays as there may be, or few of them, in the edition that is moved."""
    scalars, arrays = rng.choice((0, 1, 63, 64)), [rng.randint(1, 4) for _ in range(rng.choice((0, 1, 15, 16)))]
    given, _ = random_sheets.given_line(rng, scalars, arrays, rng.choice((0, 0.2, 1)))
    ranges = [random_sheets.ALL] * (scalars + len(arrays))
    formula = rng.choice(("true", "eq 1 quo 7 2", "and eq 1 rem 3 2 lt quo 1 2 rem 5 3", "or some l0 rem 3 2 1 true eq 1 1", "all l0 1 0 true"))
    sheet = random_sheets.lines(scalars, 1, arrays, given, formula, 3, [(1, "eq p0 rem p0 2")] * rng.choice((0, 1, 16)), ranges)
    return lowered(sheet) if way == "up" else sheet


def fuller(rng, sheet):
    """Mostly with full ranges, mostly with no word that rounds down, so that it can be moved down; a few of either may stay."""
    share = rng.choice((0, 1, 1, 1, 0.9, 0.5))
    sheet = some_replaced(rng, sheet, rb"(?<=[=,])-?[0-9]+:-?[0-9]+(?=[,\n])", share, lambda pair: FULL)
    share = rng.choice((0, 1, 1, 1, 0.9, 0.5))
    return some_replaced(rng, sheet, rb"(?<= )(div|mod)(?= )", share, lambda word: RENAMED["up"][word])


def some_replaced(rng, sheet, pattern, share, new):
    return re.sub(pattern, lambda match: new(match[0]) if rng.random() < share else match[0], sheet)
