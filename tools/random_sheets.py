#!/usr/bin/env python3
"""Random sheets of editions 1 to 3: well formed ones, ones at a limit or one past it, and damaged ones.

  tools/random_sheets.py [SEED]      prints the sheet that a seed gives

Every function is given a random.Random and draws from nothing else. `drawn` gives a sheet of any of the three sorts.
"""
import random
import re
import sys

LOW, HIGH = -2**31, 2**31 - 1
COMPARISONS = ("eq", "ne", "lt", "le", "gt", "ge")
DIVISIONS = {1: ("div", "mod"), 2: ("div", "mod"), 3: ("div", "mod", "quo", "rem")}     # of each edition
PLAIN = ("add", "sub", "mul")
OPERATIONS = PLAIN + DIVISIONS[3]
CONNECTIVES, QUANTIFIERS = ("and", "or", "imp"), ("some", "all")
WORDS = ("true", "not", "ex", "call") + CONNECTIVES + QUANTIFIERS + COMPARISONS + OPERATIONS
ENDS = (LOW, LOW + 1, HIGH - 1, HIGH)
ALL = (LOW, HIGH)                       # the range of all values
SLIPS = {1: 0, 2: 0, 3: 0.08}           # the share of well-formed sheets of each edition that have empty ranges of constants on purpose


def drawn(rng, editions=(1, 2, 3), slips=None):
    """A sheet of one of the editions: mostly well formed, one in eight at a limit, one in three damaged. `slips` is the share of well-formed ones
    that have empty ranges of constants on purpose; edition 3 refuses them, and there other sheets have none."""
    edition = rng.choice(editions)
    slips = SLIPS[edition] if slips is None else slips
    sheet = edge(rng, edition) if rng.random() < 0.12 else well_formed(rng, edition, slips > 0 and rng.random() < slips)
    if rng.random() < 0.35:
        for _ in range(rng.choice((1, 1, 1, 2, 4))):
            sheet = damaged(rng, sheet)
    return sheet


def lines(scalars=1, locals=1, arrays=(), given="", formula="true", edition=1, procedures=(), ranges=()):
    """A sheet by what its lines hold; a procedure by its number of parameters and its formula. Edition 3 has a line of ranges."""
    procedures = "".join("proc=%d:%s\n" % procedure for procedure in procedures)
    ranges = "ranges=%s\n" % ",".join("%d:%d" % pair for pair in ranges) if edition == 3 else ""
    values = edition, scalars, locals, ",".join(map(str, arrays)), ranges, given, procedures, formula
    return ("edition=%s\nscalars=%s\nlocals=%s\narrays=%s\n%sgiven=%s\n%sformula=%s\n" % values).encode()


# ---------------------------------------------------------------- well-formed sheets

def well_formed(rng, edition, slips=False):
    """A sheet that no refusal but 17 fits: what it declares and gives, and formulas that mostly use what has a value."""
    while True:
        sheet = Draft(rng, edition, slips).sheet()
        tokens = sheet.count(b" ") + sheet.count(b"\nproc=") + 1
        if len(sheet) <= 4096 and tokens <= 1024:
            return sheet


def constant(rng):
    x = rng.random()
    if x < 0.9:
        return rng.randint(-3, 9)
    return rng.choice(ENDS) if x < 0.96 else rng.choice((1, -1)) * rng.choice((46340, 46341, 65536, rng.randint(10, HIGH)))


def cells(scalars, arrays):
    """Every cell: its name in the given line, its name in the formula, and the number of its range."""
    elements = [("a%d.%d" % (n, e), "a%d %d" % (n, e), scalars + n) for n, length in enumerate(arrays) for e in range(length)]
    return [("v%d" % n, "v%d" % n, n) for n in range(scalars)] + elements


def given_line(rng, scalars, arrays, share, ranges=()):
    """The given line for that share of the cells, with the names given, as the formula writes them. Where there are ranges, each value is
    in its cell's."""
    chosen = [cell for cell in cells(scalars, arrays) if rng.random() < share]
    items = ["%s:%d" % (name, inside(rng, ranges[number]) if ranges else constant(rng)) for name, _, number in chosen]
    return ",".join(items), [name for _, name, _ in chosen]


def cell_range(rng):
    """A cell's range: a few values mostly, one value, all of 32 bits, or all above or below some value."""
    x = rng.random()
    if x < 0.25:
        return ALL
    if x < 0.35:
        return rng.choice(((LOW, rng.randint(-3, 9)), (rng.randint(-3, 9), HIGH)))
    if x < 0.42:
        return tuple(sorted(rng.choices(ENDS, k=2)))
    low = rng.randint(-3, 5)
    return low, low + rng.choice((0, 0, 1, 2, 3, 5, 9, 12))


def inside(rng, pair):
    """A value of a range, often its first or last."""
    low, high = pair
    return rng.choice((low, high, rng.randint(low, high), min(high, low + rng.randint(0, 9))))


def outside(rng, pair):
    """A value one outside a range, if there is one."""
    low, high = pair
    return rng.choice([value for value in (low - 1, high + 1) if LOW <= value <= HIGH] or [low])


class Procedure:
    """A line `proc=`: what it holds, the parameters that need a value where it is called, and what has one afterwards."""

    def __init__(self, parameters, needs):
        self.parameters, self.needs = parameters, needs
        self.formula, self.valued = None, set()


class Draft:
    """One sheet while it is drawn. `valued` holds the cells, locals and parameters that will have a value, as far as can be seen, when the
    walk gets to the place that is drawn next: names as the formula writes them, elements by a constant index."""

    def __init__(self, rng, edition, slips):
        self.rng, self.edition, self.slips = rng, edition, slips
        self.scalars = rng.choice((0, 1, 2, 2, 3, 3, 5, 9))
        self.locals = max(rng.choice((0, 1, 2, 3, 4, 6, 32)), 6 if slips else 0)
        self.arrays = [rng.choice((1, 2, 3, 3, 4, 8)) for _ in range(rng.choice((0, 0, 1, 1, 1, 2, 4)))]
        self.ranges = [cell_range(rng) for _ in range(self.scalars + len(self.arrays))] if edition == 3 else []
        self.range_of = {name: self.ranges[number] for _, name, number in cells(self.scalars, self.arrays)} if self.ranges else {}
        self.given, given = given_line(rng, self.scalars, self.arrays, rng.choice((0, 0, 0.1, 0.5)), self.ranges)
        self.valued = set(given)
        self.unbound = rng.sample(range(self.locals), self.locals)
        self.scope = []
        self.outside = set()        # names that an inner tree should not assign
        self.procedures = []
        self.parameters = 0         # of the line that is drawn

    def sheet(self):
        if self.edition >= 2:
            for _ in range(self.rng.choice((0, 1, 1, 2, 2, 3, 4, 6, 16))):
                self.procedures.append(self.procedure())
        formula = self.formula(self.rng.choice((1, 8, 15, 30, 30, 60, 120, 400)))
        procedures = [(procedure.parameters, procedure.formula) for procedure in self.procedures]
        return lines(self.scalars, self.locals, self.arrays, self.given, formula, self.edition, procedures, self.ranges)

    def procedure(self):
        """A procedure; most parameters, and in one of two sheets some cells, are taken to have a value where it is called."""
        rng, before = self.rng, set(self.valued)
        self.parameters = rng.choice((0, 1, 1, 1, 2, 2, 3, 4, 8))
        needs = {"p%d" % n for n in range(self.parameters) if rng.random() < 0.6}
        self.valued |= needs | {name for name in self.names() if name[0] != "p" and rng.random() < rng.choice((0, 0.3))}
        drawn = Procedure(self.parameters, needs)
        drawn.formula = self.formula(rng.choice((1, 5, 8, 15, 30)))
        drawn.valued, self.valued, self.parameters = self.valued - before, before, 0
        return drawn

    # -- names

    def names(self):
        """Every cell, local and parameter that may stand here."""
        elements = ["a%d %d" % (n, e) for n, length in enumerate(self.arrays) for e in range(length)]
        return ["v%d" % n for n in range(self.scalars)] + elements + self.scope + ["p%d" % n for n in range(self.parameters)]

    def unvalued(self):
        return [name for name in self.names() if name not in self.valued and name not in self.outside]

    # -- terms: `size` is about how many tokens there may be

    def term(self, size):
        rng, x = self.rng, self.rng.random()
        if size >= 3 and x < 0.7:
            left = rng.randint(1, size - 2)
            return "%s %s %s" % (rng.choice(PLAIN + DIVISIONS[self.edition]), self.term(left), self.term(size - 1 - left))
        if size >= 2 and self.arrays and x < 0.8:
            return "a%d %s" % (rng.randrange(len(self.arrays)), self.term(size - 1))
        names = sorted(self.valued) if rng.random() < 0.98 else self.names()
        return rng.choice(names) if names and rng.random() < 0.7 else str(constant(rng))

    def bounds(self):
        """A range, mostly a short one."""
        rng, x = self.rng, self.rng.random()
        if x < 0.15:
            return self.orderly(self.term(rng.choice((1, 1, 3))), self.term(rng.choice((1, 1, 3))))
        if self.slips and rng.random() < 0.4:
            last = rng.choice((LOW, HIGH - 1, rng.randint(-3, 9), constant(rng)))
            return "%d %d" % (min(HIGH, last + rng.choice((1, 1, 2, 7, 2**32))), last)
        first = rng.choice((LOW, HIGH - 2, HIGH - 1, HIGH)) if x < 0.2 else rng.randint(-2, 2)
        return self.orderly(str(first), str(max(LOW, min(HIGH, first + rng.choice((-1, 0, 1, 1, 2, 2, 3, 5))))))

    def orderly(self, first, last):
        """The bounds of a range; in edition 3 empty ones of constants the other way round, unless the sheet is to have such."""
        numbers = [bound for bound in (first, last) if re.fullmatch("-?[0-9]+", bound)]
        if self.edition == 3 and not self.slips and len(numbers) == 2 and int(first) > int(last):
            first, last = last, first
        return "%s %s" % (first, last)

    # -- formulas

    def formula(self, size):
        if size < 5:
            return self.atom(size)
        ways = [self.both, self.both, self.both, self.either, self.either, self.negated, self.implied, self.atom]
        if self.unbound:
            ways += [self.ranged, self.ranged, self.found] + [self.ranged] * (6 if self.slips else 0)
        if self.unbound and self.arrays:
            ways.append(self.filled)
        if self.procedures:
            ways += [self.called] * 6
        return self.rng.choice(ways)(size)

    def atom(self, size):
        rng, unvalued = self.rng, self.unvalued()
        if rng.random() < 0.1:
            return "true"
        if unvalued and rng.random() < 0.6:
            return self.assignment(rng.choice(unvalued), self.term(min(size, rng.choice((1, 1, 3, 5)))))
        sides = [self.term(rng.choice((1, 1, 1, 1, 1, 2, 3, 3, max(1, size // 2)))) for _ in range(2)]
        mostly_true = rng.choice(("ne %s 7", "lt %s 12", "le %s 9", "gt 12 %s", "ge %s -3"))
        return mostly_true % sides[0] if rng.random() < 0.6 else "%s %s %s" % (rng.choice(COMPARISONS), *sides)

    def assignment(self, name, term):
        self.valued.add(name)
        term = self.told(name, term)
        return "eq %s %s" % ((name, term) if self.rng.random() < 0.8 else (term, name))

    def told(self, name, term):
        """What a cell is to get: the term, or often, if it has a range, a value of that range, and now and then one outside."""
        if name not in self.range_of or self.rng.random() < 0.3:
            return term
        return str((inside if self.rng.random() < 0.85 else outside)(self.rng, self.range_of[name]))

    def parts(self, size):
        left = self.rng.randint(1, size - 2)
        return left, size - 1 - left

    def apart(self, size):
        """A formula whose assignments the formulas after it do not see."""
        before = set(self.valued)
        formula = self.formula(size)
        self.valued = before
        return formula

    def inner(self, size):
        """A formula for an inner tree: half of them assign nothing but their own locals."""
        before = set(self.outside)
        if self.rng.random() < 0.5:
            self.outside.update(self.names())
        formula = self.apart(size)
        self.outside = before
        return formula

    def both(self, size):
        left, right = self.parts(size)
        return "and %s %s" % (self.formula(left), self.formula(right))

    def either(self, size):
        left, right = self.parts(size)
        return "or %s %s" % (self.apart(left), self.formula(right))

    def negated(self, size):
        return "not " + self.inner(size - 1)

    def implied(self, size):
        left, right = self.parts(size)
        return "imp %s %s" % (self.inner(left), self.formula(right))

    def within(self, local, size):
        """The formula of a binder."""
        self.scope.append(local)
        formula = self.formula(size)
        self.scope.remove(local)
        self.valued.discard(local)
        return formula

    def found(self, size):
        local = "l%d" % self.unbound.pop()
        if self.rng.random() < 0.6:
            self.scope.append(local)
            first = self.assignment(local, self.term(1))
            self.scope.remove(local)
            return "ex %s and %s %s" % (local, first, self.within(local, size - 5))
        return "ex %s %s" % (local, self.within(local, size - 2))

    def ranged(self, size):
        """A `some` or `all`; a `some` often chooses a cell's value."""
        word, local, bounds = self.rng.choice(("some", "all")), "l%d" % self.unbound.pop(), self.bounds()
        self.valued.add(local)
        unvalued, first = self.unvalued(), ""
        if word == "some" and unvalued and self.rng.random() < 0.7:
            first = "and %s " % self.assignment(self.rng.choice(unvalued), local)
        return "%s %s %s %s%s" % (word, local, bounds, first, self.within(local, size - 4))

    def filled(self, size):
        """A value for each element of an array."""
        array = self.rng.randrange(len(self.arrays))
        local, last = "l%d" % self.unbound.pop(), self.arrays[array] - 1
        self.scope.append(local)
        self.valued.add(local)
        body = "eq a%d %s %s" % (array, local, self.told("a%d 0" % array, self.term(self.rng.choice((1, 1, 3)))))
        self.scope.remove(local)
        self.valued.discard(local)
        self.valued.update("a%d %d" % (array, e) for e in range(last + 1))
        return "all %s %s %s" % (local, self.orderly("0", str(last + self.rng.choice((0, 0, 0, 0, -1, 1)))), body)

    def called(self, size):
        """A call, often one of the procedure before: a term for each parameter that needs a value, mostly a bare name for the others."""
        rng = self.rng
        number = rng.choice((rng.randrange(len(self.procedures)), len(self.procedures) - 1))
        procedure = self.procedures[number]
        arguments, given = [], {name for name in procedure.valued if name[0] in "va"}
        for parameter in ("p%d" % n for n in range(procedure.parameters)):
            unvalued = self.unvalued()
            if parameter in procedure.needs or not unvalued or rng.random() < 0.1:
                arguments.append(self.term(min(size, rng.choice((1, 1, 2, 3, 3, 5)))))
            else:
                arguments.append(rng.choice(unvalued))
                if parameter in procedure.valued:
                    given.add(arguments[-1])
        self.valued |= given
        return " ".join(["call", str(number)] + arguments)


# ---------------------------------------------------------------- sheets at a limit, or one past it

def edge(rng, edition):
    past = rng.random() < 0.4
    if rng.random() < 0.1:
        return divided(rng, past, edition)
    if edition == 3 and rng.random() < 0.5:
        return rng.choice(RANGE_EDGES)(rng, past)
    if edition >= 2 and rng.random() < 0.6:
        return of_edition(rng, rng.choice(PROCEDURE_EDGES)(rng, past), edition)
    return of_edition(rng, rng.choice(EDGES)(rng, past), edition)


def of_edition(rng, sheet, edition):
    """A sheet of an edition before as one of this: edition 3 has a range for each scalar and array, in one sheet of two all of 32 bits."""
    sheet = b"edition=%d" % edition + sheet[len(b"edition=1"):]
    if edition < 3:
        return sheet
    scalars, arrays = re.search(rb"\nscalars=(.*)\nlocals=.*\narrays=(.*)\n", sheet).groups()
    count = int(scalars) + len(arrays.split(b",")) * (arrays != b"")
    ranges = [ALL] * count if rng.random() < 0.5 else [cell_range(rng) for _ in range(count)]
    return sheet.replace(b"\ngiven=", b"\nranges=%s\ngiven=" % b",".join(b"%d:%d" % pair for pair in ranges), 1)


def deep(rng, past):
    """Nesting 64: the formula is 1, each operand one deeper."""
    more = 63 + past
    cut = rng.randint(0, more - 1)
    outer = "".join(rng.choice(("not ", "and true ", "or true ", "imp true ", "or eq 1 2 ")) for _ in range(cut))
    term = rng.choice(("add 1 ", "mul 1 ", "sub 0 ", "a0 ", "mod 9 "))
    inner = rng.choice(("eq v0 " + term * (more - cut - 1) + "0", "not " * (more - cut) + "true"))
    return lines(arrays=(1,), given="a0.0:0", formula=outer + inner)


def tree(rng, word, leaves):
    """The leaves under a word of two operands, in a tree that is not deep."""
    if len(leaves) == 1:
        return leaves[0]
    cut = rng.randint((len(leaves) + 2) // 3, (2 * len(leaves)) // 3)
    return "%s %s %s" % (word, tree(rng, word, leaves[:cut]), tree(rng, word, leaves[cut:]))


def many_tokens(rng, past):
    """1,024 tokens: `not eq` and two sums of ones, 512 ones in all; or, with one more of them, 1,025."""
    ones = 512 + past
    cut = rng.randint(100, 400)
    sums = [tree(rng, "add", ["1"] * n) for n in (cut, ones - cut)]
    return lines(formula="%s%s %s %s" % ("" if past else "not ", rng.choice(COMPARISONS), *sums))


def many_bytes(rng, past, **declared):
    """4,096 bytes: a conjunction of comparisons whose constants make up the length."""
    atoms = rng.randint(160, 250)
    left = 4096 + past - len(lines(formula="", **declared)) - atoms * len("and eq 1 1 ") + len("and ") + 1
    more, rest = divmod(left, 2 * atoms)
    sizes = rng.sample([1 + more] * (2 * atoms - rest) + [2 + more] * rest, 2 * atoms)
    constants = [str(rng.randint(10**(size - 1), 10**size - 1)) for size in sizes]
    return lines(formula=tree(rng, "and", ["eq %s %s" % pair for pair in zip(constants[::2], constants[1::2])]), **declared)


def lengths(rng, cells, count):
    """So many lengths that together make up so many cells."""
    cuts = sorted(rng.sample(range(1, cells), count - 1))
    return [b - a for a, b in zip([0] + cuts, cuts + [cells])]


def many_cells(rng, past):
    """512 cells, the last of them named."""
    scalars = rng.choice((0, 1, 40, 64))
    arrays = lengths(rng, 512 + past - scalars, rng.randint(1, 16))
    last = len(arrays) - 1
    formula = rng.choice(("eq a%d %d 5" % (last, arrays[last] - 1), "all l0 0 %d eq a%d l0 l0" % (arrays[last] - 1, last)))
    return lines(scalars, 1, arrays, formula=formula)


def many_given(rng, past):
    """As many given items as there is room for, mostly; past: one of them again, or out of order."""
    scalars, arrays = rng.choice((0, 64)), lengths(rng, 300, rng.randint(1, 16))
    given, _ = given_line(rng, scalars, arrays, rng.choice((0.5, 0.9)))
    items = given.split(",")
    if past:
        items.insert(rng.randint(0, len(items)), rng.choice(items))
    return lines(scalars, 1, arrays, ",".join(items))


def many_arrays(rng, past):
    arrays = [rng.randint(1, 4) for _ in range(16 + past)]
    name = rng.randint(14, 16)
    return lines(1, 1, arrays, formula="eq a%d 0 %d" % (name, constant(rng)))


def many_scalars(rng, past):
    return lines(64 + past, formula="and eq v%d 1 eq v%d 2" % (rng.randint(0, 62), rng.randint(62, 65)))


def many_locals(rng, past):
    binders = "".join(rng.choice(("ex l%d ", "some l%d 0 0 ", "all l%d 1 1 ")) % n for n in rng.sample(range(32), 32))
    return lines(1, 32 + past, formula=binders + "eq v0 %d" % rng.randint(0, 3))


def one_index(rng, past):
    """A name, index or element at its limit, or far past it."""
    far = rng.choice((3, 4, 2**31, 2**32, 2**32 + 1, 2**64, 10**30)) if past else 2
    formula = rng.choice(("eq v%d 1", "eq a%d 0 1", "ex l%d true", "ex l0 eq l%d 1", "eq a0 %d 1", "eq a0 -%d 1")) % far
    given = rng.choice(("", "v%d:1", "a%d.0:1", "a0.%d:1"))
    return lines(3, 3, (3, 3, 3), given % far if given else "", formula)


def end_values(rng, past):
    """Constants, given values and results at the ends of 32 bits."""
    a, b = rng.choice(ENDS), rng.choice(ENDS + (-1, 0, 1, 2))
    if past:
        a = rng.choice((LOW - 1, HIGH + 1, 10**20, -10**20))
    formula = rng.choice(("eq v1 %s %d %d" % (rng.choice(OPERATIONS), a, b), "%s %d %d" % (rng.choice(COMPARISONS), a, b)))
    return lines(2, 1, given="v0:%d" % rng.choice((a, b)), formula=rng.choice((formula, "and eq v0 %d %s" % (b, formula))))


def end_ranges(rng, past):
    """Ranges that begin or end at the ends of 32 bits; past: all values there are."""
    word, first = rng.choice(("some", "all")), rng.choice((LOW, HIGH - rng.randint(0, 3)))
    last = HIGH if past or first > 0 else LOW + rng.randint(0, 3)
    body = rng.choice(("eq v0 l0", "ne l0 %d" % rng.choice(ENDS), "eq v0 add l0 1", "not eq l0 sub l0 1", "true"))
    return lines(formula="%s l0 %d %d %s" % (word, LOW if past else first, last, body))


def slip(rng, past):
    """Constant bounds that are equal, or one value apart; past: the lower above the upper, by one mostly, in a body, under `not` or beside it."""
    low = rng.choice(ENDS[1:] + (-10, -1, 0, 1, 9, 10))
    high = low - rng.choice((1, 1, 1, low - LOW)) if past else rng.choice((low, min(HIGH, low + 1)))
    formula = "%s l0 %d %d %s" % (rng.choice(("some", "all")), low, high, rng.choice(("eq v0 l0", "true", "lt v0 1", "ex l1 eq l1 l0")))
    outer = "all l2 %d 1 %%s" % (1 + past)
    around = rng.choice(("%s", "not %s", "and eq v0 %d %%s" % low, "or %s lt v1 1", "imp %s eq v0 1", "some l2 1 2 %s", outer))
    return lines(2, 3, formula=around % formula)


def long_path(rng, past):
    """A path of some hundred nodes; past: of some thousands."""
    last = rng.randint(900, 17000) if past else rng.randint(200, 300)
    return lines(formula="all l0 1 %d %s" % (last, rng.choice(("true", "ne l0 0", "and true true", "not eq l0 0"))))


EDGES = (deep, deep, many_tokens, many_bytes, many_cells, many_given, many_arrays, many_scalars, many_locals, one_index, end_values,
         end_ranges, long_path, slip)


# ---------------------------------------------------------------- the same for procedures

def with_procedures(procedures, formula):
    return lines(2, 2, (3,), "", formula, 2, procedures)


def many_procedures(rng, past):
    """16 procedures, each but the first calling one before it."""
    procedures = [(1, rng.choice(("eq p0 1", "eq v0 p0", "lt p0 20", "true")))]
    for number in range(1, 16 + past):
        called = rng.choice((number - 1, number - 1, number - 1, rng.randrange(number)))
        call = "call %d %s" % (called, rng.choice(("p0", "p0", "add p0 1", "a0 p0", "v0")))
        procedures.append((1, rng.choice(("%s", "%s", "and true %s", "not not %s", "or %s true")) % call))
    return with_procedures(procedures, "call %d %s" % (len(procedures) - 1, rng.choice(("0", "v0", "v1", "a0 1"))))


def many_parameters(rng, past):
    sums = tree(rng, "add", ["p%d" % n for n in rng.sample(range(8), 8)])
    arguments = [rng.choice(("v0", "1")) for _ in range(8)] + ["v1"] * past
    arguments[rng.randrange(8)] = rng.choice(("1", "v1", "a0 1", "div 1 0"))
    formula = "eq %s %s" % (rng.choice(("v1", "8", "p0", "p7", "p8")), sums)
    return with_procedures([(8 + past, formula)], "and eq v0 1 call 0 %s" % " ".join(arguments))


def many_tokens_by_lines(rng, past):
    """1,024 tokens through all lines, each line a comparison of a sum of ones, which has twice as many tokens as ones, and one."""
    procedures, left = [], 1024 + past
    for _ in range(rng.randint(1, 5)):
        ones = rng.randint(2, 90)
        procedures.append((1, "eq %s p0" % tree(rng, "add", ["1"] * ones)))
        left -= 2 * ones + 1
    ones, negations = divmod(left - 1, 2)
    formula = "not " * negations + "%s %s 1" % (rng.choice(COMPARISONS), tree(rng, "add", ["1"] * ones))
    procedures, formula = rng.choice(((procedures, formula), ([(0, formula)] + procedures[1:], procedures[0][1].replace("p0", "v0"))))
    return with_procedures(procedures, formula)


def deep_by_lines(rng, past):
    """Nesting 64 in each line, past: 65 in one; K and the arguments of a call are one below it."""
    depths = [62, 62, 62]
    depths[rng.randrange(3)] += past
    outer = [rng.choice(("not ", "and true ", "or eq 1 2 ")) * depth for depth in depths]
    last = rng.choice(("call 1 1", "call 1 1", "call 01 1", "call 2 1", "call x 1"))
    return with_procedures([(1, outer[0] + "eq p0 1"), (1, outer[1] + "call 0 p0")], outer[2] + last)


def one_number(rng, past):
    """The number of a procedure or of a parameter at its limit, or past it."""
    far = rng.choice((2, 2**31, 2**32, 2**32 + 1, 2**64, 10**30)) if past else 1
    number = rng.choice(("%d" % far, "%d" % far, "-%d" % far, "0%d" % far, "-0", "v0", "p0", "", "%dx" % far))
    formula = rng.choice(("call %s v0 1", "call 0 p%s 1", "eq p%s 1", "ex p%s true", "p%s", "not call %s v0 v1")) % number
    procedures = [(2, "eq p0 p1"), (2, rng.choice(("call 0 p%s 1", "call %s p0 p1", "eq p1 p%s")) % rng.choice((number, "0", "1")))]
    return with_procedures(procedures, formula)


def many_uses(rng, past):
    """A parameter used many times in the argument of the next call: what it stands for is huge where `past`."""
    uses, depth = (rng.randint(20, 30), 14) if past else (2, rng.randint(1, 8))
    argument = tree(rng, rng.choice(("add", "sub")), ["p0"] * uses)
    procedures = [(1, rng.choice(("eq v0 p0", "lt p0 5", "some l0 p0 p0 eq v0 l0", "not eq v1 p0", "and eq v1 0 eq v0 p0")))]
    procedures += [(1, "call %d %s" % (number, argument)) for number in range(depth)]
    return with_procedures(procedures, "call %d %s" % (depth, rng.choice(("0", "0", "1", "v1", "a0 v1", "div 1 0"))))


PROCEDURE_EDGES = (many_procedures, many_parameters, many_tokens_by_lines, deep_by_lines, one_number, one_number, many_uses)


# ---------------------------------------------------------------- the same for ranges

def many_pairs(rng, past):
    """A range for each of many scalars and arrays, or few, or none; past: one too few or too many."""
    scalars, arrays = rng.choice((0, 1, 63, 64)), [rng.randint(1, 4) for _ in range(rng.choice((0, 1, 16)))]
    ranges = [cell_range(rng) for _ in range(scalars + len(arrays))]
    every = cells(scalars, arrays)
    atoms = ["eq %s %d" % (name, inside(rng, ranges[number])) for _, name, number in every[:1] + every[-1:]]
    if past:
        ranges = ranges[:-1] if ranges and rng.random() < 0.5 else ranges + [cell_range(rng)]
    return lines(scalars, 1, arrays, formula=tree(rng, "and", atoms or ["true"]), edition=3, ranges=ranges)


def own_ranges(rng, past):
    """Scalars and arrays, each with ten values of its own; each scalar, and the first and last element of each array, gets one of them;
    past: one gets what another may have."""
    scalars, arrays, first = rng.randint(0, 3), [rng.randint(1, 5) for _ in range(rng.choice((2, 3, 16)))], rng.randint(-90, 90)
    ranges = [(first + 10 * n, first + 10 * n + 9) for n in rng.sample(range(scalars + len(arrays)), scalars + len(arrays))]
    told = [("v%d" % n, ranges[n]) for n in range(scalars)]
    told += [("a%d %d" % (n, e), ranges[scalars + n]) for n, length in enumerate(arrays) for e in (0, length - 1)[:length]]
    wrong = rng.randrange(len(told)) if past else -1
    atoms = ["eq %s %d" % (name, inside(rng, rng.choice(ranges) if n == wrong else pair)) for n, (name, pair) in enumerate(told)]
    return lines(scalars, 1, arrays, formula=tree(rng, rng.choice(("and", "and", "or")), atoms), edition=3, ranges=ranges)


BORDER = ("eq v1 %d", "eq %d v1", "eq a0 2 %d", "eq add 0 %d a0 0", "not eq v1 %d", "not eq a0 1 %d", "not not eq v1 %d",
          "imp eq v1 %d eq v0 1", "imp true eq v1 %d", "not imp true eq %d v1", "or eq v1 %d eq v0 2", "some l0 0 2 eq a0 l0 %d",
          "all l0 0 2 eq a0 l0 %d", "ex l0 and eq l0 %d eq v1 l0", "not ex l0 and eq l0 %d eq a0 0 l0", "not ex l0 eq l0 %d",
          "call 0 v1 %d", "call 0 %d v1", "call 1 a0 2 %d", "not call 1 v1 %d", "ex l0 call 1 l0 %d", "and eq v1 %d true")


def border(rng, past):
    """A value of a cell's range, often on its border, assigned in one of many ways or given; past: one outside."""
    pair = cell_range(rng)
    value = (outside if past else inside)(rng, pair)
    given = rng.choice(("", "", "", "v1:%d", "a0.2:%d"))
    procedures = [(2, "eq p0 p1"), (2, "call 0 p0 p1")]
    formula = rng.choice(BORDER) % value
    return lines(2, 1, (3,), given % value if given else "", formula, 3, procedures, [ALL, pair, pair])


def end_pairs(rng, past):
    """Ranges at the ends of 32 bits; past: a number beyond them, or the first above the last."""
    low, high = sorted(rng.choices(ENDS, k=2))
    pair = rng.choice(((LOW - 1, high), (low, HIGH + 1), (10**20, high), (HIGH, LOW), (high, high - 1))) if past else (low, high)
    value = rng.choice((low, high, *ENDS))
    return lines(2, 1, formula="or eq v0 %d %s v1 %d" % (value, rng.choice(("eq", "not eq")), value), edition=3, ranges=[(low, high), pair])


def many_bytes_with_ranges(rng, past):
    ranges = [cell_range(rng) for _ in range(rng.randint(1, 20))]
    return many_bytes(rng, past, scalars=len(ranges), edition=3, ranges=ranges)


RANGE_EDGES = (many_pairs, many_pairs, own_ranges, own_ranges, border, border, border, border, end_pairs, many_bytes_with_ranges)


# ---------------------------------------------------------------- division

def operand(rng):
    return rng.choice((rng.randint(-13, 13), rng.choice(ENDS), rng.randint(LOW, HIGH)))


def divided(rng, past, edition):
    """Divisions with operands of both signs, and at the ends of 32 bits; past: by 0, the least number by -1, or a word of another edition."""
    atoms = ["eq v0 %s %d %d" % (rng.choice(DIVISIONS[edition]), operand(rng), operand(rng) or 12) for _ in range(rng.randint(1, 12))]
    if past:
        word = rng.choice(DIVISIONS[edition])
        odd = ("%s %d 0" % (word, operand(rng)), "%s %d -1" % (word, LOW), "%s %d 12" % (rng.choice(DIVISIONS[3]), operand(rng)))
        atoms.append("eq v0 " + rng.choice(odd))
    return lines(1, 0, formula=tree(rng, "or", atoms), edition=edition, ranges=[ALL])


# ---------------------------------------------------------------- damage

def damaged(rng, sheet):
    ways = DAMAGES + RANGE_DAMAGES if b"\nranges=" in sheet else DAMAGES
    return rng.choice(ways)(rng, sheet) if sheet else b"\n"


def telling(rng):
    """A byte: mostly one that means something in a sheet."""
    return rng.choice(b"0123456789-=,:. \nvalp\r\tXx") if rng.random() < 0.8 else rng.randrange(256)


def changed(rng, sheet):
    at = rng.randrange(len(sheet))
    return sheet[:at] + bytes([telling(rng)]) + sheet[at + 1:]


def dropped(rng, sheet):
    at = rng.randrange(len(sheet))
    return sheet[:at] + sheet[at + rng.choice((1, 1, 1, 2, 5)):]


def inserted(rng, sheet):
    at = rng.randint(0, len(sheet))
    return sheet[:at] + bytes(telling(rng) for _ in range(rng.choice((1, 1, 1, 2)))) + sheet[at:]


def doubled(rng, sheet):
    at, size = rng.randrange(len(sheet)), rng.choice((1, 1, 2, 5, 30))
    return sheet[:at + size] + sheet[at:]


def cut_short(rng, sheet):
    return sheet[:rng.randrange(len(sheet))]


def goes_on(rng, sheet):
    return sheet + rng.choice((b"\n", b" ", b"\0", b"true\n", b"given=\n", b"proc=0:true\n", sheet))


def lines_moved(rng, sheet):
    """Two lines swapped, or one dropped or written twice."""
    rows = sheet.splitlines(keepends=True)
    a, b = rng.randrange(len(rows)), rng.randrange(len(rows))
    way = rng.randrange(3)
    if way == 0:
        rows[a], rows[b] = rows[b], rows[a]
    else:
        rows[a:a + 1] = [] if way == 1 else [rows[a]] * 2
    return b"".join(rows)


def replaced(rng, sheet, pattern, new):
    """One of the places that match the pattern, rewritten by `new`."""
    found = list(re.finditer(pattern, sheet))
    if not found:
        return sheet
    match = rng.choice(found)
    return sheet[:match.start()] + new(match[0]) + sheet[match.end():]


def number_changed(rng, sheet):
    """A number made longer, given a zero or a minus before it, or changed a little."""
    def new(old):
        near = b"%d" % (int(old[:30]) + rng.choice((-1, 1, 2, 60)))
        return rng.choice((b"0" + old, b"-" + old, b"--" + old, old + b"0" * rng.choice((1, 9, 40)), old + b"-", near, b""))
    return replaced(rng, sheet, rb"[0-9]+", new)


TOKEN = rb"(?<=[ =:])[a-z][a-z0-9]*(?=[ \n])"


def word_changed(rng, sheet):
    """A token exchanged for any other word, name or constant, or its case changed."""
    def new(old):
        name = "%s%d" % (rng.choice("vlap"), rng.choice((0, 0, 1, 2, 3, 70)))
        return rng.choice((rng.choice(WORDS).encode(), name.encode(), b"%d" % constant(rng), old.upper(), old[:-1], b""))
    return replaced(rng, sheet, TOKEN, new)


def word_exchanged(rng, sheet):
    """A token exchanged for one like it: another word with such operands, or its first letter with another number."""
    def new(old):
        for group in (CONNECTIVES, QUANTIFIERS, COMPARISONS, OPERATIONS):
            if old.decode() in group:
                return rng.choice(group).encode()
        return b"%s%d" % (old[:1], rng.choice((0, 1, 2, 3, 9)))
    return replaced(rng, sheet, TOKEN, new)


def edition_changed(rng, sheet):
    return replaced(rng, sheet, rb"(?<=edition=)[123]", lambda old: rng.choice((b"1", b"2", b"3", b"4")))


def pair_changed(rng, sheet):
    """A range dropped, written twice, turned round, empty by one, or with another sign in it or after it."""
    def new(old):
        low, high = old.split(b":")
        empty = b"%d:%s" % (int(high[:30]) + 1, high)
        return rng.choice((b"", old + b"," + old, high + b":" + low, empty, empty + b"x", low + b":", b":" + high, low, low + b"," + high,
                           low + b" :" + high, low + b"-" + high, old + b":" + high, old + b"x"))
    return replaced(rng, sheet, rb"(?<=[=,])-?[0-9]+:-?[0-9]+(?=[,\n])", new)


def bounds_changed(rng, sheet):
    """The constant bounds of a quantifier turned round, or made empty by one or nearly so."""
    def new(old):
        quantifier, low, high = old.rsplit(b" ", 2)
        near = b"%d" % (int(high[:30]) + rng.choice((0, 1, 1)))
        return b" ".join((quantifier, *rng.choice(((high, low), (near, high), (near, high)))))
    return replaced(rng, sheet, rb"(?<=[ =:])(some|all) l[0-9]+ -?[0-9]+ -?[0-9]+(?=[ \n])", new)


def item_changed(rng, sheet):
    """A given value one more or less."""
    def new(old):
        name, value = old.split(b":")
        return b"%s:%d" % (name, int(value[:30]) + rng.choice((-1, 1)))
    return replaced(rng, sheet, rb"(?<=[=,])[va][0-9.]+:-?[0-9]+(?=[,\n])", new)


def ranges_changed(rng, sheet):
    """Another value of the line of ranges."""
    def new(old):
        return rng.choice((b"", b"0:1", b"0:9,0:9,0:9", old + b",", b"," + old, old + b",0:1", old[:rng.randint(0, len(old))]))
    return replaced(rng, sheet, rb"(?<=\nranges=).*", new)


DAMAGES = (changed, dropped, inserted, doubled, cut_short, goes_on, lines_moved, number_changed, number_changed, word_changed, word_changed,
           word_exchanged, word_exchanged, edition_changed)
RANGE_DAMAGES = (pair_changed, pair_changed, pair_changed, item_changed, item_changed, ranges_changed, bounds_changed)


if __name__ == "__main__":
    sys.stdout.buffer.write(drawn(random.Random(int(sys.argv[1]) if len(sys.argv) > 1 else None)))
