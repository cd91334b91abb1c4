#!/usr/bin/env python3
"""Build the engines, run every measure and print the tables of README.md.

    python3 bench/run.py [RUNS]     RUNS (default 5): a time is the least of so many runs

The library is measured if libvodlasim_c.a stands in the folder VODLASIM_LIB, by default crates/vodlasim_c/out; Prolog if gplc is found.
"""
import os
import re
import resource
import shutil
import subprocess
import sys
from pathlib import Path

HERE = Path(__file__).resolve().parent
LIBRARY = Path(os.environ.get("VODLASIM_LIB", HERE.parent / "crates" / "vodlasim_c" / "out"))
ENGINES = ["walker"] + ["library"] * (LIBRARY / "libvodlasim_c.a").exists()
PROLOG = shutil.which("gplc")
BENCH = HERE / "rust" / "target" / "release" / "bench"
SEARCHES = HERE / "build" / "searches"
RUNS = int(sys.argv[1]) if len(sys.argv) > 1 else 5
MOST = 2**32 - 1        # a skip that keeps every block back, a budget that is not reached

# name, sheet, given line, options, how often a run repeats the search, the search in Prolog
PROGRAMS = [
    ("queens8", "queens", "v0:8", ["--output", "65536"], 50, ["queens", 8]),
    ("queens8_call", "queens_call", "v0:8", ["--output", "65536"], 50, ["queens", 8]),
    ("queens11", "queens", "v0:11", ["--skip", MOST], 1, ["queens", 11]),
    ("arithmetic", "arithmetic", "v0:5000", ["--skip", MOST], 1, ["arithmetic", 5000]),
    ("arrays", "arrays", "v0:299", ["--skip", MOST], 1, ["arrays", 299]),
    ("primes", "primes", "v0:9000", ["--skip", MOST], 1, ["primes", 9000]),
    ("chain", "chain", "v0:20000,v1:254", ["--skip", MOST], 1, ["chain", 20000, 254]),
    ("unknown", "unknown", "v0:5000", ["--skip", MOST], 1, ["unknown", 5000]),
    ("ranged", "ranged", "v0:5000", ["--skip", MOST], 1, ["ranged", 5000]),
    ("rounding", "rounding", "v0:5000", ["--skip", MOST], 1, ["rounding", 5000]),
]


def output(command, **more):
    return subprocess.run([str(word) for word in command], check=True, stdout=subprocess.PIPE, text=True, **more)


def build():
    features = ["--features", "library"] if "library" in ENGINES else []
    environment = {**os.environ, "VODLASIM_LIB": str(LIBRARY)}
    output(["cargo", "build", "--quiet", "--release", "--offline", *features], cwd=HERE / "rust", env=environment)
    if PROLOG:
        SEARCHES.parent.mkdir(exist_ok=True)
        output([PROLOG, "--fast-math", "--no-top-level", "-o", SEARCHES, HERE / "prolog" / "searches.pl"])


def sheet(name, given):
    """The sheet of that name with this given line."""
    return re.sub("given=.*", "given=" + given, (HERE / "sheets" / (name + ".sheet")).read_text())


def cost(command, **more):
    """What a command prints and the processor seconds it takes, which other work on the machine disturbs less than the clock's."""
    def seconds():
        used = resource.getrusage(resource.RUSAGE_CHILDREN)
        return used.ru_utime + used.ru_stime
    start = seconds()
    printed = output(command, **more).stdout
    return dict(re.findall(r"^(end|nodes|answers)=(\w+)$", printed, re.M)), seconds() - start


def measure(name, given, options, repeats, search=None, rounds=RUNS):
    """Nodes and answers, which all must share, and the nanoseconds for a node by engine; the engines take turns."""
    commands = {engine: [BENCH, engine, "-", "--budget", MOST, *options, "--runs", repeats] for engine in ENGINES}
    if search and PROLOG:
        commands["Prolog"] = [SEARCHES, search[0], repeats, *search[1:]]
    found, best = {}, {}
    for _ in range(rounds):
        for engine, command in commands.items():
            shown, seconds = cost(command, input=sheet(name, given))
            for key, value in shown.items():
                assert found.setdefault(key, value) == value, (name, engine, key, value)
            best[engine] = min(seconds, best.get(engine, seconds))
    assert found["end"] == "done" or "--budget" in options, (name, found)
    nodes = int(found["nodes"])
    return nodes, {engine: seconds * 1e9 / repeats / nodes for engine, seconds in best.items()}


def table(head, rows):
    print("| " + " | ".join(head) + " |")
    print("|---" + "|---:" * (len(head) - 1) + "|")
    for row in rows:
        shown = (f"{x:,.1f}" if isinstance(x, float) else f"{x:,}" if isinstance(x, int) else x for x in row)
        print("| " + " | ".join(shown) + " |", flush=True)
    print()


def row(costs, *engines):
    """The engines' costs, and the ratio of the library's to each of the others'; empty where an engine is not measured."""
    library = costs.get("library")
    ratios = [f"{library / costs[engine]:.2f}" if library and engine in costs else "" for engine in engines if engine != "library"]
    return [costs.get(engine, "") for engine in engines] + ratios


def searches():
    for name, file, given, options, repeats, search in PROGRAMS:
        nodes, costs = measure(file, given, options, repeats, search)
        yield [name, nodes] + row(costs, "walker", "library", "Prolog")


def by_nodes():
    """The first nodes of twelve queens."""
    for power in range(4, 9):
        options = ["--budget", 10**power, "--skip", MOST]
        nodes, costs = measure("queens", "v0:12", options, max(1, 10**7 // 10**power), rounds=RUNS if power < 8 else 1)
        yield [nodes] + row(costs, "walker", "library")


def by_path():
    """Ten million nodes in chains as long as the path allows, and in a search below such a chain."""
    for limit in (512, 2048, 8192, 32768):
        length = limit // 2 - 8
        options = ["--path-limit", limit, "--skip", MOST]
        _, chain = measure("chain", f"v0:{10**7 // (2 * length)},v1:{length}", options, 1)
        _, bottom = measure("bottom", f"v0:5000,v1:{length}", options, 1)
        yield [limit] + row(chain, "walker", "library") + row(bottom, "walker", "library")


def collected(engine, text, options):
    """Instructions and nodes of one run."""
    command = ["valgrind", "--tool=callgrind", "--callgrind-out-file=/dev/null", BENCH, engine, "-", *options]
    run = output(command, input=text, stderr=subprocess.PIPE)
    return int(re.search(r"Collected : (\d+)", run.stderr)[1]), int(re.search(r"nodes=(\d+)", run.stdout)[1])


def weighed(label, name, given, options, budget):
    """A row: instructions for a node over at most so many nodes, those of a run of `true` taken off."""
    costs = {}
    for engine in ENGINES:
        empty, few = collected(engine, sheet("true", ""), options)
        whole, nodes = collected(engine, sheet(name, given), [*options, "--budget", budget])
        costs[engine] = (whole - empty) / (nodes - few)
    return [label, nodes] + row(costs, "walker", "library")


def instructions():
    for label, name, given, options, *_ in PROGRAMS:
        yield weighed(label, name, given, options, 400000)
    for budget in (10**4, 10**5, 10**6):
        yield weighed("queens12", "queens", "v0:12", ["--skip", MOST], budget)
    for limit in (512, 2048, 8192, 32768):
        options = ["--path-limit", limit, "--skip", MOST]
        yield weighed(f"chain, path limit {limit:,}", "chain", f"v0:20000,v1:{limit // 2 - 8}", options, 400000)


def by_terms():
    """Instructions for a node of a test whose left term has so many additions, those of `true` taken off."""
    options = ["--skip", MOST, "--budget", 400000]
    for length in (0, 1, 2, 4, 8, 16, 32):
        term = "add " * length + "l1" + " 1" * length
        text = f"edition=1\nscalars=0\nlocals=2\narrays=\ngiven=\nformula=some l0 1 5000 some l1 1 1000 lt {term} 0\n"
        costs = {}
        for engine in ENGINES:
            empty, few = collected(engine, sheet("true", ""), options)
            whole, nodes = collected(engine, text, options)
            costs[engine] = (whole - empty) / (nodes - few)
        yield [length] + row(costs, "walker", "library")


def together(word, formulas):
    """The formulas under one word of two operands, nested as little as can be."""
    half = len(formulas) // 2
    return " ".join((word, together(word, formulas[:half]), together(word, formulas[half:]))) if half else formulas[0]


def full(edition, arrays, given, procedures, formula):
    """A sheet of 4,096 bytes: each # becomes a constant, and they are made so long that it has that many."""
    text = f"edition={edition}\nscalars=10\nlocals=0\narrays={arrays}\ngiven={given}\n{procedures}formula={formula}\n"
    digits, longer = divmod(4096 - len(text), text.count("#"))
    assert 0 <= digits < 9, (len(text), digits)
    first, *rest = text.split("#")
    return first + "".join("1" * (1 + digits + (i < longer)) + part for i, part in enumerate(rest))


def full_sheets():
    """Sheets as long as may be, each long in another of its lines."""
    tests = ["eq v1 #", "lt v2 add v3 #", "true", "ge a0 8 #", "ne sub v1 v2 mul v3 -#"] * 38
    body = together("or", ["lt p0 add p1 #"] * 10)
    yield "given values", full(1, 500, ",".join(f"a0.{i}:#" for i in range(330)), "", "true")
    yield "tests", full(1, 9, "v0:#", "", together("and", tests))
    yield "short words", full(1, "", "", "", together("imp", ["true"] * 400 + ["eq # v3"] * 30))
    yield "procedures", full(2, "", "", f"proc=2:{body}\n" * 16, "call 15 v0 v1")


def reading():
    """Instructions to read such a sheet, those of `true` taken off; one node is visited."""
    for name, text in full_sheets():
        costs = {}
        for engine in ENGINES:
            empty, _ = collected(engine, sheet("true", ""), ["--budget", 1])
            whole, nodes = collected(engine, text, ["--budget", 1])
            assert nodes == 1, (name, nodes)
            costs[engine] = whole - empty
        yield [name] + row(costs, "walker", "library")


def main():
    build()
    print("Nanoseconds for a node\n")
    table(["search", "nodes", "walker", "library", "Prolog", "library / walker", "library / Prolog"], searches())
    print("By number of nodes (twelve queens, path limit 512)\n")
    table(["nodes", "walker", "library", "library / walker"], by_nodes())
    print("By path limit (10,000,000 nodes)\n")
    table(["path limit", "walker, chain", "library, chain", "ratio", "walker, bottom", "library, bottom", "ratio"], by_path())
    print("Instructions for a node\n")
    table(["search", "nodes", "walker", "library", "library / walker"], instructions())
    print("Instructions for a node, by the length of a term\n")
    table(["additions", "walker", "library", "library / walker"], by_terms())
    print("Instructions to read a full sheet\n")
    table(["sheet, long in its", "walker", "library", "library / walker"], reading())


main()
