#!/usr/bin/env python3
"""Prints for each crate its lines of code, of specs and of proofs, without blanks and comments, and its must-fail edits.

    bench/crates.py

Code has contracts and tests. The crates come in the order of crates.txt.
"""
import pathlib

HOME = pathlib.Path(__file__).resolve().parent.parent
PARTS = (("src", "*.rt", "//"), ("specs", "*.antt", "--"), ("proofs", "*.antt", "--"))


def names():
    """The crates of crates.txt, whose rows are `NAME: LIBRARY ..`, also with a word after the name."""
    rows = (row.split("#")[0].split(":")[0].split() for row in (HOME / "crates.txt").read_text().splitlines())
    return [row[0] for row in rows if row]


def lines(folder, files, comment):
    rows = (row.strip() for path in folder.rglob(files) for row in path.read_text().splitlines())
    return sum(1 for row in rows if row and not row.startswith(comment))


def counts(crate):
    folder = HOME / "crates" / crate
    return [*(lines(folder / part, files, comment) for part, files, comment in PARTS),
            len(list((folder / "must-fail").glob("*.edit")))]


def main():
    rows = [(crate, counts(crate)) for crate in names()]
    rows.append(("all %d crates" % len(rows), [sum(column) for column in zip(*(row for _, row in rows))]))
    width = max(len(name) for name, _ in rows)
    print(f"{'crate':{width}}    code   specs  proofs  edits")
    for name, (code, specs, proofs, edits) in rows:
        print(f"{name:{width}} {code:7,} {specs:7,} {proofs:7,} {edits:6}")


main()
