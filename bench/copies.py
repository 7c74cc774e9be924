#!/usr/bin/env python3
"""Lists the lemmas whose statement stands more than once, whatever their variables are called.

    bench/copies.py [--all]

A statement is the type of a lemma at the top level of a file of proofs/. Answers, invariants, worked facts and what has
a value as its result (a list, a point, a type) don't count. Without --all only those are listed that stand in two crates
or more.
"""
import collections
import glob
import os
import re
import sys

HOME = os.path.join(os.path.dirname(os.path.abspath(__file__)), "..", "crates")
START = re.compile(r"^(?:pub )?(?:abbrev )?(?:pub )?([A-Za-z_◌][^\s:({]*)\s*:(?=\s|$)")
NAME = re.compile(r"[A-Za-z_][\w'’]*(?:-[\w']+)*")


def lemmas(path):
    """The lemmas at the top level of a file: name, line, statement."""
    name, line, text = None, 0, []
    for number, row in enumerate(open(path, encoding="utf-8"), 1):
        row = row.rstrip("\n")
        if row.strip().startswith("--") or not row.strip():
            continue
        start = START.match(row)
        if start:
            if name:
                yield name, line, " ".join(text)
            name, line, text = start.group(1), number, [row[start.end():]]
        elif row[:1].isspace():
            if name:
                text.append(row.strip())
        elif name:
            yield name, line, " ".join(text)
            name = None
    if name:
        yield name, line, " ".join(text)


def normal(statement):
    """A statement whose bound variables are numbered in their order."""
    bound = set()
    for group in re.findall(r"[({]([^(){}:]*?):(?=\s)", statement):
        bound.update(NAME.findall(group))
    for group in re.findall(r"λ\s+\(?([^.:()]*)[.:]", statement):
        bound.update(NAME.findall(group))
    numbers = {}

    def number(match):
        word = match.group(0)
        if word not in bound:
            return word
        return "v%d" % numbers.setdefault(word, len(numbers))

    text = NAME.sub(number, statement)
    text = re.sub(r"\.\s*\{[^}]*\}", "", text)
    return re.sub(r"\s+", "", text)


def is_lemma(statement):
    """Whether the result is a proposition, and no value of a type."""
    depth, result = 0, statement
    for at, letter in enumerate(statement):
        depth += (letter in "({[") - (letter in ")}]")
        if letter == "→" and depth == 0:
            result = statement[at + 1:]
    head = NAME.match(result.strip())
    return bool(re.search(r"[≡≢≤<⊥×⊎↔]", result) or head and head.group(0)[:1].isupper()
                and not re.match(r"(Type|Bool|List|Option|Result)\b|\w*Value\b|\w+$", result.strip()))


def main():
    places = collections.defaultdict(list)
    for path in sorted(glob.glob(os.path.join(HOME, "*", "proofs", "**", "*.antt"), recursive=True)):
        if path.endswith(("Answers.antt", "Invariants.antt", "Facts.antt")):
            continue
        place = os.path.relpath(path, HOME)
        for name, line, statement in lemmas(path):
            if is_lemma(statement):
                places[normal(statement)].append((place, line, name))
    repeated = [rows for rows in places.values()
                if len({row[0].split("/")[0] for row in rows}) > 1 or ("--all" in sys.argv and len(rows) > 1)]
    for rows in sorted(repeated, key=len, reverse=True):
        print("; ".join("%s:%d %s" % row for row in rows))
    print("%d statements, %d copies" % (len(repeated), sum(len(rows) - 1 for rows in repeated)))


main()
