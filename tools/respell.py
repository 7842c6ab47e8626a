#!/usr/bin/env python3
"""Brings this repository's own definitions and lemmas to today's spelling: words in snake case, facts and types in camel case.

usage: python3 tools/respell.py      at the top of the repository, once, after the port's own script

It reads every name that the crates' specs/ and proofs/ declare, and respells those with a dash wherever they stand in a file of
specs/ or proofs/ or in a clause of a .rt file. Code, strings, comments of .rt files and goals' names keep their spelling.
"""

import os
import re
import sys

WORD = r"[^\s(){}\[\],;.:|]+"
SIGNATURE = re.compile(rf"^\s*(?:(?:pub|abbrev|unfoldable)\s+)*({WORD}(?:\s+{WORD})*)\s*:(?=\s)")
ALIAS = re.compile(rf"\bas ({WORD})")
TYPE = re.compile(rf"^\s*(?:(?:pub|abbrev|unfoldable)\s+)*(?:record|data)\s+({WORD})")
NAME = re.compile(r"[A-Za-z_][A-Za-z0-9_'\u2032]*(?:-[A-Za-z0-9_'\u2032]+)+")


def files(ending):
    for folder, dirs, names in os.walk("crates"):
        dirs[:] = sorted(d for d in dirs if d != "out")
        for name in sorted(names):
            if name.endswith(ending):
                yield os.path.join(folder, name)


def declared():
    """Every name with a dash that a file of specs/ or proofs/ declares, or an import gives; the goals that answers name are not among them."""
    own = set()
    for ending in (".antt", ".rt"):
        for path in files(ending):
            with open(path, encoding="utf-8") as f:
                uses = [line for line in f if re.match(r"(?:ghost )?use ", line)]
            own.update(n for line in uses for n in ALIAS.findall(line) if NAME.fullmatch(n))
    for path in files(".antt"):
        with open(path, encoding="utf-8") as f:
            for line in f:
                m = TYPE.match(line) or SIGNATURE.match(line)
                if m and " goal." not in line and not line.lstrip().startswith("--"):
                    own.update(n for n in m.group(1).split() if NAME.fullmatch(n))
    return own


def respelled(name):
    parts = name.split("-")
    if name[0].isupper():
        return "".join(p[:1].upper() + p[1:] for p in parts)
    return "_".join(parts)


def turned(text, new):
    """The names of one text, where a dotted path's last part is a name too. A goal's or a step's name, as in goal.x-y, keeps its spelling."""

    def one(m):
        before = text[max(0, m.start() - 5) : m.start()]
        return m.group(0) if before.endswith("goal.") else new.get(m.group(0), m.group(0))

    return NAME.sub(one, text)


def clauses(text, new):
    """A .rt file: only `ghost use` lines and the braces of clauses and ghost items are turned."""
    out, at = [], 0
    for m in re.finditer(r"\bghost use [^;]*;|\b(?:requires|ensures)\*?(?: \w+)? \{|\bghost \w+(?::| =) \{|\bghost \w+: ", text):
        if m.start() < at:
            continue
        end = m.end()
        if text[end - 1] == "{":
            depth = 1
            while depth:
                depth += {"{": 1, "}": -1}.get(text[end], 0)
                end += 1
        out += [text[at : m.start()], turned(text[m.start() : end], new)]
        at = end
    return "".join(out) + text[at:]


def main():
    if not os.path.exists("crates.txt"):
        sys.exit("respell: run it at the top of the repository")
    new = {n: respelled(n) for n in declared()}
    for ending, turn in ((".antt", turned), (".rt", clauses)):
        for path in files(ending):
            with open(path, encoding="utf-8") as f:
                old = f.read()
            text = turn(old, new)
            if text != old:
                with open(path, "w", encoding="utf-8") as f:
                    f.write(text)
    for n in sorted(new):
        print(n, new[n])


main()
