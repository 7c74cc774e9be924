#!/usr/bin/env python3
"""Writes the drawing of an SVG file, as Inkscape and other editors save it. Not proved, unlike the programs.

usage: from_svg.py IN.svg OUT.rw [STEP] [--within=MM] [--apart=MM] [--width=N] [--centre] [--skip]

Writes a block for each stroke colour, in the order in which they first appear, with the nearest thread of the PEC palette.
STEP, or --step=STEP, is the longest stitch in tenths of a millimetre, 25 without it. OUT.rw may be - for the standard output.
  --within=MM  how far a curve may be from its points and the lines between them: 0.1 without it, 0.08 to 10
  --apart=MM   how far apart the points of a curve may be: 0.5 without it, 0.3 to 10
  --width=N    makes the drawing N tenths of a millimetre wide, or 80mm, 8cm or 3in; its left and upper edges stay
  --centre     brings the middle of the drawing to 0 0
  --skip       leaves out what can't be sewn, and names it
Threads, size, middle and what is left out are reported on the standard error.
Status 0: written, 1: refused, nothing is written, 2: wrong arguments, or svgelements is missing.
"""
import os
import re
import sys

sys.dont_write_bytecode = True
sys.path.append(os.path.join(os.path.dirname(os.path.abspath(__file__)), "..", "python"))
try:
    from stitch.svg import by_svgelements as library
    from stitch.svg.drawing import RANGES, document, drawing
    from stitch.svg.strokes import TooMuch, plain
    from stitch.svg.style import Refused
except ImportError as why:
    library, MISSING = None, why.name

# The python3 of Debian, which sees Debian's packages.
DEBIAN = "/usr/bin/python3"
# The units in which an option may be given, with what they are multiplied by.
UNITS = {"step": {"": 1}, "within": {"": 1, "mm": 1}, "apart": {"": 1, "mm": 1},
         "width": {"": 1, "mm": 10, "cm": 100, "in": 254}}


class WrongWord(Exception):
    """Which of the arguments isn't understood, and why."""


def value_of(name, text):
    """The value of an option: whole numbers for --step and --width, and millimetres."""
    found, (low, high) = re.fullmatch(r"(\d+(?:\.\d+)?)([a-z]*)", text or ""), RANGES[name]
    by = UNITS[name].get(found[2]) if found else None
    is_whole = name in ("step", "width")
    if by is None or is_whole and by == 1 and "." in text:
        raise WrongWord(f"--{name}={text or ''}: it isn't a {'whole ' * is_whole}number"
                        + (name == "width") * ", or one of mm, cm or in")
    value = float(found[1]) * by
    if not low <= value <= high:
        raise WrongWord(f"--{name}={text}: it isn't from {low} to {high}")
    return round(value) if is_whole else value


def options_of(words):
    """The names of both files and the options. A value may follow its option as the next word."""
    files, options, words = [], {}, list(words)
    while words:
        name, equals, value = words.pop(0).partition("=")
        if name in ("--centre", "--skip") and not equals:
            options[name[2:]] = True
        elif name[:2] == "--" and name[2:] in RANGES:
            options[name[2:]] = value_of(name[2:], value if equals else words.pop(0) if words else None)
        elif name[:2] == "--":
            raise WrongWord(f"{name}: there is no such option")
        else:
            files.append(name + equals + value)
    if files[2:] and files[2].isdigit():
        options["step"] = value_of("step", files.pop(2))
    if len(files) != 2:
        raise WrongWord(f"{files[2]}: it is neither a STEP nor an option" if files[2:] else "it takes two names: IN.svg and OUT.rw")
    if files[1] != "-" and not files[1].endswith(".rw"):
        raise WrongWord(f"{files[1]}: the name of a drawing ends in .rw")
    return files, options


def read(name):
    """The root of a document, and its text."""
    try:
        with open(name, "rb") as file:
            return document(file.read())
    except OSError as why:
        raise Refused(f"cannot read it: {why.strerror or why}") from None


def write(name, text):
    """Writes a drawing to a file, or to the standard output if the name is -."""
    try:
        if name == "-":
            sys.stdout.write(text)
            sys.stdout.flush()
        else:
            with open(name, "w", encoding="ascii") as out:
                out.write(text)
    except OSError as why:
        raise Refused(f"cannot write {name}: {why.strerror or why}") from None


def run(words):
    """Runs the script, and returns its status and what it reports."""
    try:
        (name, out), options = options_of(words)
    except WrongWord as why:
        return 2, [f"from_svg.py: {plain(str(why))}", __doc__.split("\n\n", 1)[1].rstrip()]
    try:
        if out != "-" and os.path.exists(out) and os.path.exists(name) and os.path.samefile(name, out):
            raise Refused("the drawing would replace it: name another file")
        made = drawing(*read(name), library, **options)
        write(out, made.text)
        return 0, made.report
    except (Refused, TooMuch) as why:
        return 1, [f"from_svg.py: {plain(name)}: {line}" for line in str(why).split("\n")]
    except (RecursionError, MemoryError):
        return 1, [f"from_svg.py: {plain(name)}: it is too large, or has too many groups in groups: divide or ungroup it"]


def main(words):
    """Runs the script, by Debian's python3 where this one lacks the library, and reports."""
    if library is None:
        if sys.executable != DEBIAN and os.access(DEBIAN, os.X_OK):
            os.execv(DEBIAN, [DEBIAN, __file__, *words])
        print("from_svg.py: it needs svgelements: sudo apt install python3-svgelements" if MISSING == "svgelements" else
              f"from_svg.py: it needs the module {MISSING}", file=sys.stderr)
        return 2
    try:
        status, report = run(words)
    except Exception as why:
        status, report = 1, [f"from_svg.py: {words[0]}: it can't be read: {type(why).__name__}: {plain(str(why))}"]
    print("\n".join(report), file=sys.stderr)
    return status


if __name__ == "__main__":
    sys.exit(main(sys.argv[1:]))
