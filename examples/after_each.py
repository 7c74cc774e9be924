#!/usr/bin/env python3
"""Prints the table of examples/README.md of what five patterns are after each command: their penetrations, trims and travel, and
their shortest and longest stitch. It needs svgelements, as from_svg.py.

    examples/after_each.py

STITCH_BIN names a folder with the programs, to be run in place of those of this repository.
"""
import os
import subprocess
import sys
import tempfile

HERE = os.path.dirname(os.path.abspath(__file__))
BIN = os.environ.get("STITCH_BIN") or os.path.dirname(HERE)
PATTERNS = ["bird", "house", "name", "quilt", "wreath"]
COMMANDS = [["snap", "2"], ["cross"], ["space"], ["free"], ["near"]]


def printed(folder, program, *words):
    """The lines that a program prints."""
    run = [os.path.join(BIN, program), *words]
    return subprocess.run(run, cwd=folder, stdout=subprocess.PIPE, text=True, check=True).stdout.splitlines()


def numbers(line, *names):
    """The numbers after names in a line of a report."""
    words = line.split()
    return [int(words[words.index(name) + 1]) for name in names]


def cells(folder, drawing):
    """The numbers of a drawing: of its route, which `check` has to confirm, and of what `look` reports."""
    routed = printed(folder, "stitch", "route", drawing, "a.pes", "a.cert")
    if printed(folder, "stitch", "check", drawing, "a.pes", "a.cert") != ["yes"]:
        sys.exit(f"after_each.py: {drawing}: check says no")
    trims, penetrations = numbers(routed[-1], "pieces", "penetrations")
    looked = printed(folder, "stitch_drawing", "look", drawing)
    lengths = [numbers(line, "shortest", "longest") for line in looked if " piece " in line]
    shortest, longest = min(pair[0] for pair in lengths), max(pair[1] for pair in lengths)
    return [penetrations, trims, *numbers(looked[-1], "travel"), shortest, longest]


def rows(folder, pattern):
    """The rows of a pattern: as it is drawn, and after each command."""
    svg, drawing = os.path.join(HERE, f"{pattern}.svg"), "0.rw"
    subprocess.run([sys.executable, os.path.join(HERE, "from_svg.py"), svg, os.path.join(folder, drawing)],
                   stderr=subprocess.DEVNULL, check=True)
    yield f"`{pattern}.svg`", cells(folder, drawing)
    for number, (name, *arguments) in enumerate(COMMANDS, 1):
        printed(folder, "stitch_drawing", name, *arguments, drawing, f"{number}.rw")
        drawing = f"{number}.rw"
        yield f"`{' '.join([name, *arguments])}`", cells(folder, drawing)


def main():
    print("| After | Penetrations | Trims | Travel | Shortest stitch | Longest stitch |")
    print("|---|---:|---:|---:|---:|---:|")
    for pattern in PATTERNS:
        with tempfile.TemporaryDirectory() as folder:
            for name, values in rows(folder, pattern):
                print(f"| {name} | {' | '.join(f'{value:,}' for value in values)} |", flush=True)


if __name__ == "__main__":
    main()
