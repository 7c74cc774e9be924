#!/usr/bin/env python3
"""Compares the two headlines of docs/THEOREMS.md with the files of both provers: `python3 headlines.py REPOSITORY`.

A definition of the headline that is changed in one prover alone is found beside the other one there.
"""
import os
import sys

FILES = {"antt": "crates/route_verdict/specs/LeastRedwork.antt", "coq": "checker/coq/LeastRedwork.v"}


def blocks(page):
    """The code blocks of a page with their languages."""
    parts = page.split("```")
    return [part.split("\n", 1) for part in parts[1::2]]


def main(home):
    """Looks for both headlines, each as a whole, in the files."""
    with open(os.path.join(home, "docs/THEOREMS.md"), encoding="utf-8") as file:
        shown = [(language, text) for language, text in blocks(file.read()) if language in FILES]
    if [language for language, _ in shown] != ["antt", "coq"]:
        sys.exit("coq: docs/THEOREMS.md hasn't the two headlines")
    for language, text in shown:
        with open(os.path.join(home, FILES[language]), encoding="utf-8") as file:
            if text not in file.read():
                sys.exit(f"coq: docs/THEOREMS.md has another headline than {FILES[language]}")


if __name__ == "__main__":
    main(*sys.argv[1:])
