#!/usr/bin/env python3
"""Brings the repository's own names to the spelling of today's Rattle: a word is in snake case, a type in camel case, a dash joins two names.

usage: python3 tools/respell.py [--docs]     at the top of the repository, once, after port.py

Renamed are the words in camel case that specs/ and proofs/ declare, the fields with a dash, and the names of types with a dash, wherever they are named: in .antt files,
in the clauses and ghost imports of .rt files and in must-fail edits (with --docs also what stands in backquotes in README.md and docs/). Functions of src/, exported
names, strings, inputs and outputs keep their names. A name that is there already in a file that the new one comes to stops the script.
"""

import os
import re
import sys

TOKEN = re.compile(r'"(?:\\.|[^"\\\n])*"|[^\s(){}\[\];,."`@⟨⟩|]+')
MEMBER = re.compile(r"^  (?:pub )?(?P<names>[^\s():,=-][^():,=]*?)\s*:(?:\s|$)")
TYPE = re.compile(r"^(?:(?:abbrev|unfoldable|pub) )+(?P<name>[a-z][^\s():,]*)\s+: Type 0$")
CAMEL = re.compile(r"[a-z]\w*[A-Z]\w*")
# Words of std, and short names of proofs (the formula `F` of the argument `c`).
KEPT = re.compile(r"not_T|[a-z][A-Z]")
# Lemmas and names inside of proofs that port.py gave the name of a definition: they get their dash back.
DASHED = {w.replace("-", "_"): w for w in "after-first constant-token firsts-at narrow-at number-word some-below some-word term-of text-in".split()}


def files(root, *endings):
    for folder, folders, names in os.walk(root):
        folders[:] = sorted(f for f in folders if f not in ("out", ".git"))
        for name in sorted(names):
            if name.endswith(endings):
                yield os.path.join(folder, name)


def read(path):
    with open(path, encoding="utf-8") as f:
        return f.read()


def snake(word):
    """A capital begins a new word, and so does each capital of a row of them."""
    if KEPT.fullmatch(word) or not CAMEL.fullmatch(word):
        return word
    return re.sub(r"_?([A-Z])", lambda m: "_" + m[1].lower(), word)


def stands_apart(name, path):
    """A definition may have the name of the function of src/ that it describes, and a field that of a function."""
    return name == "all_digits" or path.endswith(".rt") or os.path.basename(os.path.dirname(path)) == name or path.endswith("/Proof.antt") or path.endswith("/specs/Moves.antt")


def members_and_types():
    """The new names of fields with a dash and of types in lower case."""
    names = {}
    for path in files("crates", ".antt"):
        inside = False
        for line in read(path).split("\n"):
            if re.match(r"^(?:pub )?record\s", line):
                inside = True
            elif line and not line.startswith((" ", "--")):
                inside = False
            m = MEMBER.match(line)
            if inside and m:
                for name in m["names"].split():
                    if "-" in name:
                        names[name] = snake(name.replace("-", "_"))
            m = TYPE.match(line)
            if m and "-" in m["name"]:
                names[m["name"]] = "".join(w[:1].upper() + w[1:] for w in m["name"].split("-"))
    return names


def main():
    names = members_and_types()
    said = {}
    stop = []

    def turn(token, path):
        if token.startswith('"'):
            return token
        if token in DASHED and path.endswith(".antt"):
            return DASHED[token]
        new = names.get(token) or "-".join(snake(part) for part in token.split("-"))
        if new != token:
            said[token] = new
        return new

    changed = {}
    paths = list(files("crates", ".antt", ".rt", ".edit"))
    if "--docs" in sys.argv:
        paths += ["README.md", *files("docs", ".md")]
    for path in paths:
        old = read(path)
        if path.endswith(".md"):
            changed[path] = re.sub(r"`[^`\n]+`", lambda m: TOKEN.sub(lambda t: turn(t[0], path), m[0]), old)
            continue
        new = TOKEN.sub(lambda m: turn(m[0], path), old)
        there = {m[0] for m in TOKEN.finditer(old)}
        for token in there:
            other = turn(token, path)
            if other != token and other in there and other not in DASHED and not stands_apart(other, path):
                stop.append(f"{path}: {token} would become {other}, which is there already")
        if new != old:
            changed[path] = new
    if stop:
        raise SystemExit("respell: nothing was changed\n" + "\n".join(stop))
    for path, new in changed.items():
        with open(path, "w", encoding="utf-8") as f:
            f.write(new)
    print(f"respell: {len(said)} names, {len(changed)} files")
    for old, new in sorted(said.items()):
        print(f"  {old} -> {new}")


main()
