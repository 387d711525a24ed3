#!/usr/bin/env python3
"""Brings this repository's own names in specs, proofs and clauses to one spelling: snake case, types in upper camel case.

usage: python3 tools/respell.py [FOLDER]      (FOLDER: the top of a checkout, by default this one)

It was run once, right after the kit's port.py, and goes by text. A name is the repository's own if it has a
hyphen, stands in a lemma file or a file of specs and is not imported there from a library. In the folder of a
function's proof only those names are turned: the others there, as loop-s-preserved, are made by the check.
In pages of docs/ and in README.md names are turned inside backquotes.
"""
import glob
import os
import re
import sys

TOKEN = r"[A-Za-z][A-Za-z0-9_'-]*"
ANY = re.compile(r"(?<![A-Za-z0-9_'-])" + TOKEN)
OF_A_FUNCTION = re.compile(r"/proofs/.+/(Answers|Invariants|Choices|Proof)\.antt$")
MADE = re.compile(r"(returns|loop|invariant|measure)-")


def files(top, pattern):
    found = glob.glob(os.path.join(top, pattern), recursive=True)
    return sorted(f for f in found if "/out/" not in f and "/target/" not in f)


def without_comments(text, mark):
    return re.sub(re.escape(mark) + ".*", "", text)


def imported(text, crates):
    """The names that a file takes from libraries."""
    names = set()
    for path, items in re.findall(r"use ([\w.]+)\.\{([^}]*)\}", text):
        parts = path.split(".")
        if parts[0] != "Rattle" or parts[1] not in crates:
            names.update(re.findall(TOKEN, items))
    return names


def own_names(top, crates):
    names = set()
    for f in files(top, "crates/*/specs/**/*.antt") + files(top, "crates/*/proofs/**/*.antt"):
        if OF_A_FUNCTION.search(f):
            continue
        text = without_comments(open(f, encoding="utf-8").read(), "--")
        names.update(w for w in ANY.findall(text) if "-" in w and not MADE.match(w) and w not in imported(text, crates))
    return names


def turned(name):
    if name[0].isupper():
        return "".join(part[:1].upper() + part[1:] for part in name.split("-"))
    return name.replace("-", "_")


def main(top):
    crates = {os.path.basename(os.path.dirname(f)) for f in glob.glob(os.path.join(top, "crates/*/src"))}
    own = own_names(top, crates)

    def turn(match):
        # 'the lost-map law' is English
        english = match.string.startswith(" law", match.end())
        return turned(match[0]) if match[0] in own and not english else match[0]

    for f in files(top, "crates/*/specs/**/*.antt") + files(top, "crates/*/proofs/**/*.antt") + files(top, "crates/*/src/**/*.rt"):
        old = open(f, encoding="utf-8").read()
        # strings keep their text
        parts = re.split(r'("(?:\\.|[^"\\\n])*")', old)
        new = "".join(p if p.startswith('"') else ANY.sub(turn, p) for p in parts)
        if new != old:
            open(f, "w", encoding="utf-8").write(new)
    for f in files(top, "docs/*.md") + files(top, "README.md"):
        old = open(f, encoding="utf-8").read()
        new = re.sub(r"`[^`\n]*`", lambda span: ANY.sub(turn, span[0]), old)
        if new != old:
            open(f, "w", encoding="utf-8").write(new)
    print(f"{len(own)} names")


if __name__ == "__main__":
    main(sys.argv[1] if len(sys.argv) > 1 else os.path.join(os.path.dirname(os.path.realpath(__file__)), ".."))
