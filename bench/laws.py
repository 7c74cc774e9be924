#!/usr/bin/env python3
"""Lists each theorem function with its clauses, so that a law that changes shows as a line that changes.

    bench/laws.py > docs/laws.txt

A theorem function returns nothing and gets nothing, but for a few that are called theorems: its contract is the law. A line has
its crate, file and name, its clauses, how many definitions of specs these unfold to, and a sum of the clauses and of those
definitions without comments, as bench/reached.py finds them. `.ci/crates` compares the list with docs/laws.txt.
"""
import glob
import hashlib
import os
import re

import reached

THEOREM = re.compile(r"^[ \t]*/// Theorem:[^\n]*\n(?:[ \t]*///[^\n]*\n)*[ \t]*(?:pub(?:\([^)]*\))? )?fn (\w+)"
                     r"|^[ \t]*(?:pub(?:\([^)]*\))? )?fn (\w+)(?:<[^>\n]*>)?\(\)$", re.M)


def sum_of(name, text):
    """A sum of a clause and of the definitions that it unfolds to, and their number."""
    places = sorted(reached.reached(name)[0])
    parts = [text] + ["\n".join(reached.read(crate, module)[0][word]) for crate, module, word in places]
    words = "\n".join(" ".join(part.split()) for part in parts)
    return hashlib.sha256(words.encode()).hexdigest()[:16], len(places)


def laws():
    """The lines of the list, in the order of crates, files and functions."""
    for path in sorted(glob.glob(os.path.join(reached.HOME, "*", "src", "**", "*.rt"), recursive=True)):
        crate, _, file = os.path.relpath(path, reached.HOME).split(os.sep, 2)
        for found in THEOREM.finditer(open(path, encoding="utf-8").read()):
            function = found[1] or found[2]
            clauses = " ".join(reached.clauses(crate, file, function)[0].split())
            if clauses:
                total, count = sum_of(f"{crate}/src/{file}:{function}", clauses)
                yield f"{crate}/{file} {function}: {clauses} | {count} definitions, {total}"


if __name__ == "__main__":
    print("\n".join(laws()))
