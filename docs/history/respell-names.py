#!/usr/bin/env python3
"""Respells this repository's own definitions and lemmas as today's Rattle spells names.

usage: python3 docs/history/respell-names.py        at the top of the repository, once, after the kit's port.py; it was run on one commit (PORT.md)

Functions, fields, constructors and lemmas are in snake case, types and facts in camel case. A dash stays in a lemma's name where it joins
the names of two definitions, as in length-schedule. Not touched: names that Rattle makes (goals, invariants, measures), names of the
library, functions of src/, strings, and comments but for names in backquotes. It prints each renaming, and names that fall together.
"""

import glob
import os
import re
import sys

WORD = re.compile(r"(?:[^\W\d]|[θρπχι])(?:[\w'₀₁₂₃₄₅₆₇₈₉]|-(?=[\w+])|\+(?=\+)|(?<=-)\+\+)*")
DEFINES = re.compile(r"^\s*(?:(abbrev|unfoldable) )?(?:pub )?([^\s:(){}.,;]+) : (.*)")
DECLARES = re.compile(r"^\s*(?:pub )?(record|data) ([^\s:(){}.,;]+)")
ALIAS = re.compile(r"([\w'◌-]+) as ([\w'-]+)")
MADE = re.compile(r"\b(goal|given|Given|Goals|rules)\.")
LIBRARY = set("length take drop map set append replicate reverse sum get_or slice_index filter zip repeat concat".split())


def files():
    for kind in ("specs", "proofs", "src"):
        for end in ("antt", "rt"):
            yield from sorted(glob.glob(f"crates/*/{kind}/**/*.{end}", recursive=True))


def snake(name):
    return re.sub(r"(?<=[a-z0-9])([A-Z])", lambda m: "_" + m[1].lower(), name.replace("-", "_"))


def camel(name):
    return "".join(p[:1].upper() + p[1:] for p in name.split("-"))


def plain(name):
    """Is it to be respelled: a dash, or a capital within a word that begins in lower case?"""
    return "-" in name or re.match(r"[a-z]+[A-Z]", name)


def own():
    """The names that the files define: definitions (with fields, constructors and types), and lemmas."""
    definitions, lemmas, made = set(), set(), set()
    for path in files():
        if not path.endswith(".antt"):
            continue
        answers = os.path.basename(path) in ("Answers.antt", "Invariants.antt", "Proof.antt")
        inside = None
        with open(path, encoding="utf-8") as f:
            for line in f:
                if line.strip().startswith("--"):
                    continue
                if not line.strip():
                    inside = inside if line.startswith(" ") else None
                    continue
                d = DECLARES.match(line)
                if d:
                    definitions.add(d[2])
                    inside = len(line) - len(line.lstrip())
                    continue
                m = DEFINES.match(line)
                if not m:
                    continue
                depth = len(line) - len(line.lstrip())
                if MADE.search(m[3]) and answers:
                    made.add(m[2])
                elif m[1] or (inside is not None and depth > inside):
                    definitions.add(m[2])
                else:
                    lemmas.add(m[2])
                if inside is not None and depth <= inside:
                    inside = None
    return definitions, lemmas - definitions, made


def aliases():
    found = set()
    for path in files():
        with open(path, encoding="utf-8") as f:
            for line in f:
                if re.match(r"\s*(ghost )?use ", line):
                    found |= {a[2] for a in ALIAS.finditer(line)}
    return found


def renamed(definitions, lemmas, made):
    names = {}
    for n in sorted(definitions | aliases()):
        if plain(n) and n not in made and n[-1] != "+":
            names[n] = camel(n) if n[:1].isupper() else snake(n)
    known = {snake(d) for d in definitions} | LIBRARY
    for n in sorted(lemmas):
        if not plain(n) or n in made or n[-1] == "+":
            continue
        parts = n.split("-")
        new = snake(n)
        for i in range(1, len(parts)):
            left, right = "_".join(parts[:i]), "_".join(parts[i:])
            if left in known and right in known:
                new = left + "-" + right
        if new != n:
            names[n] = new
    return names


def turn_code(text, names):
    return WORD.sub(lambda m: names.get(m[0], m[0]), text)


def turn_comment(text, names):
    return re.sub(r"`([^`]+)`", lambda m: "`" + turn_code(m[1], names) + "`", text)


def turn(line, names, mark):
    out, i = "", 0
    for m in re.finditer(r'"(?:[^"\\]|\\.)*"' + "|" + re.escape(mark) + r"(?!\S*[\w]--).*$", line):
        out += turn_code(line[i : m.start()], names)
        out += turn_comment(m[0], names) if m[0].startswith(mark) else m[0]
        i = m.end()
    return out + turn_code(line[i:], names)


def main():
    definitions, lemmas, made = own()
    names = renamed(definitions, lemmas, made)
    everything = set()
    for path in files():
        with open(path, encoding="utf-8") as f:
            everything |= set(WORD.findall(f.read()))
    together = {}
    for old, new in names.items():
        together.setdefault(new, []).append(old)
    for new, olds in sorted(together.items()):
        if len(olds) > 1 or new in everything:
            print(f"together: {new}: {' '.join(olds)}" + (" (the name stood before)" if new in everything else ""))
    for path in files():
        mark = "--" if path.endswith(".antt") else "//"
        with open(path, encoding="utf-8") as f:
            old = f.read()
        new = "\n".join(turn(line, names, mark) for line in old.split("\n"))
        if new != old:
            with open(path, "w", encoding="utf-8") as f:
                f.write(new)
    for old, new in sorted(names.items()):
        print(f"{old} -> {new}")
    return 0


if __name__ == "__main__":
    sys.exit(main())
