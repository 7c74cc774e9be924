"""The rows: files before, commands of a program, and for each its status, its standard output and standard error, and the
files after. They come from docs/FORMATS.md, the manual pages and computation by hand, never from what a program printed.

A file that no command of a row names as changed must be as before, and no further file may be there.
"""
from collections import namedtuple
from math import isqrt

from row_files import (A_CERT, A_LIST, A_PICTURE, MAKERS, Folder, SameAs, Text, Zeros, cert, dst, exp, lst, path, pec, pes,
                       rw, text)

Row = namedtuple("Row", "title before steps")
Step = namedtuple("Step", "words status out err after")
ROWS = []

USAGE = {
    "stitch": text(
        "usage: stitch route DRAWING OUT CERT", "       stitch check DRAWING FILE CERT",
        "       stitch convert IN OUT [--split] [--cut]", "       stitch show FILE", "       stitch edit IN OUT EDIT...",
        "       stitch hoop FILE WIDTH HEIGHT", "       stitch sample N DRAWING", "       stitch migrate DRAWING OUT",
        "       stitch trace FILE DRAWING", "       stitch double DRAWING OUT CERT"),
    "stitch_picture": text(
        "usage: stitch_picture FILE OUT.svg [WIDTH HEIGHT] [size=WxH]",
        "       stitch_picture FILE OUT.svg plain[=RRGGBB] [size=WxH]", "       stitch_picture DRAWING OUT.svg [size=WxH]",
        "       stitch_picture DRAWING CERT OUT.svg [size=WxH]", "       stitch_picture --help", "       stitch_picture --version"),
    "stitch_drawing": text(
        "usage: stitch_drawing look DRAWING [GAP]", "       stitch_drawing snap GAP DRAWING OUT [--keep]",
        "       stitch_drawing cross DRAWING OUT [--keep]",
        "       stitch_drawing space DRAWING OUT [length=N] [leeway=N]", "       stitch_drawing free DRAWING OUT",
        "       stitch_drawing near DRAWING OUT", "       stitch_drawing edit DRAWING OUT EDIT...",
        "       stitch_drawing --help", "       stitch_drawing --version"),
    "stitch_design": text(
        "usage: stitch_design look FILE [KEY=N...]", "       stitch_design pass FILE [KEY=N...]",
        "       stitch_design edit IN OUT EDIT...", "       stitch_design compare A B [--threads]",
        "       stitch_design threads [FILE]", "       stitch_design --help", "       stitch_design --version"),
}


def row(title, before, *steps):
    ROWS.append(Row(title, before, steps))


def program_of(words):
    return words.split()[0] if isinstance(words, str) else words[0]


def done(words, out, after=None):
    """A command that is done: its report, and the files that it writes."""
    return Step(words, 0, out, "", after or {})


def refused(words, what):
    """A command that is refused: nothing is printed on standard output, and no file changes."""
    return Step(words, 1, "", f"{program_of(words)}: {what}\n", {})


def misused(words, what=None):
    """Arguments that request nothing: the usage text, after a line about the first that isn't understood where the program
    names it, and no file changes."""
    said = "" if what is None else f"{program_of(words)}: {what}\n"
    return Step(words, 2, "", said + USAGE[program_of(words)], {})


def mistaken(*cases):
    """Arguments of which one isn't understood, each with what is said of it."""
    return [misused(words, what) for words, what in cases]


def failed(words, what, after=None):
    """A command of which a file fails, and the outputs that are written before."""
    return Step(words, 3, "", f"{program_of(words)}: {what}\n", after or {})


# A line of four steps, with the only walk over it, its certificate and the design that sews it.
LINE = rw(1, "step 10", "color 1", "line 0 0 40 0")
LINE_CERT = cert("piece 4", "walk 1 -1", "cut 8 1")
LINE_ACTS = ["block 1", *path(0, 0, 10, 0, 20, 0, 30, 0, 40, 0, 30, 0, 20, 0, 10, 0, 0, 0), "trim"]
LINE_LIST = lst(*LINE_ACTS)

# The closed line of the first example.
SQUARE = rw(1, "step 30", "color 5", "line 0 0 30 0 30 30 0 30 0 0")
SQUARE_CERT = cert("piece 0", "walk 1")
SQUARE_ACTS = ["block 5", *path(0, 0, 30, 0, 30, 30, 0, 30, 0, 0), "trim"]

# Inputs that are right, beside the one that a row is about.
GIVEN = {"given.rw": LINE, "given.lst": LINE_LIST, "given.cert": LINE_CERT}

# Each command that reads a drawing, as `a.rw`.
OF_DRAWING = [
    "stitch route a.rw b.dst b.cert", "stitch double a.rw b.dst b.cert", "stitch check a.rw given.lst given.cert",
    "stitch migrate a.rw b.rw", "stitch_drawing look a.rw", "stitch_drawing look a.rw 5", "stitch_drawing snap 2 a.rw b.rw",
    "stitch_drawing cross a.rw b.rw",     "stitch_drawing space a.rw b.rw", "stitch_drawing edit a.rw b.rw turn=1", "stitch_picture a.rw b.svg",
    "stitch_picture a.rw given.cert b.svg"]

# Each command that reads a certificate, as `a.cert`.
OF_CERT = ["stitch check given.rw given.lst a.cert", "stitch_picture given.rw a.cert b.svg"]


def of_design(ending):
    """Each command that reads a design, as `a` with that ending."""
    name = f"a.{ending}"
    return [f"stitch show {name}", f"stitch convert {name} b.lst", f"stitch convert {name} b.dst --cut --split",
            f"stitch edit {name} b.lst turn=0", f"stitch hoop {name} 10 10", f"stitch trace {name} b.rw",
            f"stitch check given.rw {name} given.cert", f"stitch_picture {name} b.svg",
            f"stitch_picture {name} b.svg 10 10", f"stitch_design look {name}", f"stitch_design pass {name}",
            f"stitch_design compare {name} given.lst", f"stitch_design threads {name}",
            f"stitch_design edit {name} b.lst tie"]


# ---- arguments ----

HERE = {"a.rw": LINE, "b.rw": SQUARE, "a.lst": LINE_LIST, "b.lst": lst(*SQUARE_ACTS), "b.dst": "old", "a.cert": LINE_CERT,
        "b.cert": SQUARE_CERT, "a.svg": "old picture", "b.svg": "picture", "b.txt": "text", "10": "ten"}

row("usage of stitch, with files there", HERE, *map(misused, [
    "stitch", "stitch frob", "stitch Show a.lst", "stitch --help", "stitch --version",
    "stitch route a.rw b.dst", "stitch route a.rw b.dst b.cert b.svg", "stitch route a.rw b.txt b.cert",
    "stitch route a.rw b.dst b.dst", "stitch route a.rw b.dst a.rw", "stitch route b.dst b.dst b.cert",
    "stitch double a.rw b.dst", "stitch double a.rw b.txt b.cert", "stitch double a.rw b.dst b.dst",
    "stitch double a.rw b.dst a.rw", "stitch double b.dst b.dst b.cert",
    "stitch check a.rw a.lst", "stitch check a.rw b.txt a.cert", "stitch check a.rw a.lst a.cert b.cert",
    "stitch convert a.lst", "stitch convert a.lst a.lst", "stitch convert a.lst b.txt", "stitch convert b.txt b.lst",
    "stitch convert a.lst b.dst --frob", "stitch convert a.lst b.dst --split --split",
    "stitch convert a.lst b.dst --cut --cut", "stitch convert a.lst b.dst --split --cut --split",
    "stitch convert --split a.lst b.dst", "stitch show", "stitch show b.txt", "stitch show a.rw", "stitch show a.lst b.lst",
    "stitch edit a.lst b.lst", "stitch edit a.lst a.lst turn=1", "stitch edit a.lst b.txt turn=1",
    "stitch edit a.lst b.lst turn=4", "stitch edit a.lst b.lst turn=-1", "stitch edit a.lst b.lst turn=",
    "stitch edit a.lst b.lst turn=1 frob=1", "stitch edit a.lst b.lst shift=60001,0",
    "stitch edit a.lst b.lst shift=0,-60001", "stitch edit a.lst b.lst shift=1", "stitch edit a.lst b.lst shift=1,2,3",
    "stitch edit a.lst b.lst shift=+1,0", "stitch edit a.lst b.lst mirror=z", "stitch edit a.lst b.lst mirror",
    "stitch edit a.lst b.lst thread=0,1", "stitch edit a.lst b.lst thread=256,1", "stitch edit a.lst b.lst thread=1,256",
    "stitch edit a.lst b.lst thread=1,-1", "stitch edit a.lst b.lst centre", "stitch edit a.lst b.lst step=1",
    "stitch hoop a.lst 10", "stitch hoop a.lst 0 10", "stitch hoop a.lst 10 0", "stitch hoop a.lst 60001 10",
    "stitch hoop a.lst 10 60001", "stitch hoop a.lst x 10", "stitch hoop b.txt 10 10", "stitch hoop a.lst 1 1 1",
    "stitch sample 0 b.rw", "stitch sample 1000000 b.rw", "stitch sample x b.rw", "stitch sample -1 b.rw",
    "stitch sample 75", "stitch migrate a.rw", "stitch migrate a.rw a.rw", "stitch migrate a.rw b.rw b.lst",
    "stitch trace a.lst", "stitch trace a.lst a.lst", "stitch trace b.txt b.rw", "stitch trace a.lst b.rw b.lst",
    ["stitch", "show", ""], ["stitch", "migrate", "a.rw", ""], ["stitch", "route", "", "b.dst", "b.cert"],
    ["stitch", "show", "a" * 4093 + ".lst"], ["stitch", "edit", "a.lst", "b.lst", ""]]))

row("usage of stitch_picture, with files there", HERE, misused("stitch_picture"), *mistaken(
    ("stitch_picture a.lst", "a.lst: needs the name of a picture"), ("stitch_picture a.lst b.txt", "b.txt: needs the ending .svg"),
    ("stitch_picture a.lst B.SVG", "B.SVG: needs the ending .svg"), ("stitch_picture a.lst b.svg 10", "10: needs the ending .svg"),
    ("stitch_picture a.lst b.svg 0 10", "0: from 1 to 100000"), ("stitch_picture a.lst b.svg 10 0", "0: from 1 to 100000"),
    ("stitch_picture a.lst b.svg 100001 10", "100001: from 1 to 100000"),
    ("stitch_picture a.lst b.svg 10 100001", "100001: from 1 to 100000"),
    ("stitch_picture a.lst b.svg x 10", "x: from 1 to 100000"), ("stitch_picture a.lst b.svg 10 10 11", "11: not understood"),
    ("stitch_picture a.lst b.svg plain=", "plain=: needs six hexadecimal digits"),
    ("stitch_picture a.lst b.svg plain=red", "plain=red: needs six hexadecimal digits"),
    ("stitch_picture a.lst b.svg plain=fffffff", "plain=fffffff: needs six hexadecimal digits"),
    ("stitch_picture a.lst b.svg plane", "plane: needs the ending .svg"),
    ("stitch_picture a.lst b.svg 10 10 plain", "plain: not understood"),
    ("stitch_picture a.rw a.svg plain", "a.rw: no format has this ending"),
    *[(f"stitch_picture a.lst b.svg size={size}", f"size={size}: needs WxH, each from 10 to 2000")
      for size in ("", "210", "x", "9x10", "10x9", "2001x10", "10x2001", "10x10x10", "10X10", "1.5x20", "-10x10")],
    ("stitch_picture a.rw a.cert b.svg size=a4", "size=a4: needs WxH, each from 10 to 2000"),
    ("stitch_picture a.rw b.svg size=10", "size=10: needs WxH, each from 10 to 2000"),
    ("stitch_picture a.lst b.svg 10 10 size=10", "size=10: needs WxH, each from 10 to 2000"),
    ("stitch_picture a.lst b.svg plain size=10", "size=10: needs WxH, each from 10 to 2000"),
    ("stitch_picture a.lst b.txt size=10", "b.txt: needs the ending .svg"), ("stitch_picture a.lst size=10x10", "size=10x10: needs the ending .svg"),
    ("stitch_picture a.lst b.svg size=10x10 plain", "size=10x10: from 1 to 100000"),
    ("stitch_picture a.lst b.svg 10 10 size=10x10 11", "size=10x10: not understood"),
    ("stitch_picture a.rw a.svg 10 10 size=10x10", "a.rw: no format has this ending"),
    ("stitch_picture a.svg a.svg", "a.svg: is an input"), ("stitch_picture a.rw a.svg 10 10", "a.rw: no format has this ending"),
    ("stitch_picture a.rw a.svg a.svg", "a.svg: is an input"), ("stitch_picture a.svg a.cert a.svg", "a.svg: is an input"),
    ("stitch_picture a.rw a.cert b.txt", "b.txt: needs the ending .svg"),
    (["stitch_picture", "", "a.svg"], ": not a file name"),
    (["stitch_picture", "a" * 4093 + ".lst", "a.svg"], "a" * 200 + ": not a file name")),
    done("stitch_picture --help", USAGE["stitch_picture"]), done("stitch_picture --version", "stitch_picture 0.4.0\n"))

row("usage of stitch_drawing, with files there", HERE, misused("stitch_drawing"), *mistaken(
    ("stitch_drawing frob a.rw", "frob: not a command"), ("stitch_drawing look", "look: needs a file"),
    ("stitch_drawing look a.rw 101", "101: from 0 to 100"), ("stitch_drawing look a.rw -1", "-1: from 0 to 100"),
    ("stitch_drawing look a.rw x", "x: from 0 to 100"), ("stitch_drawing look a.rw 1 2", "2: not understood"),
    ("stitch_drawing snap", "snap: needs a gap"), ("stitch_drawing snap 2 a.rw", "a.rw: needs a file"),
    ("stitch_drawing snap a.rw b.rw", "a.rw: from 0 to 100"), ("stitch_drawing snap 101 a.rw b.rw", "101: from 0 to 100"),
    ("stitch_drawing snap -1 a.rw b.rw", "-1: from 0 to 100"), ("stitch_drawing snap 2 a.rw a.rw", "a.rw: is the input"),
    ("stitch_drawing snap 2 a.rw b.rw b.lst", "b.lst: not understood"), ("stitch_drawing space a.rw", "a.rw: needs a file"),
    ("stitch_drawing cross", "cross: needs a file"), ("stitch_drawing cross a.rw a.rw", "a.rw: is the input"),
    ("stitch_drawing cross a.rw b.rw keep", "keep: not understood"),
    ("stitch_drawing cross a.rw b.rw --keep x", "x: not understood"),
    ("stitch_drawing space a.rw a.rw", "a.rw: is the input"), ("stitch_drawing space a.rw b.rw b.lst", "b.lst: not understood"),
    ("stitch_drawing space a.rw b.rw length=0", "length=0: from 1 to 2047"),
    ("stitch_drawing edit a.rw b.rw", "b.rw: needs an edit"), ("stitch_drawing edit a.rw a.rw turn=1", "a.rw: is the input"),
    *[(f"stitch_drawing edit a.rw b.rw {edit}", f"{edit}: not an edit") for edit in (
        "turn=4", "mirror=z", "shift=60001,0", "thread=1,2", "step=0", "step=2048", "order=0,1", "order=1,0", "order=1,1025",
        "order=1025,1", "order=1", "start=30001,0", "end=0,-30001", "start=1", "centre=1")],
    ("stitch_drawing edit a.rw b.rw centre frob", "frob: not an edit"), ("stitch_drawing --help a.rw", "a.rw: not understood"),
    (["stitch_drawing", "look", ""], ": not a file name"), (["stitch_drawing", "look", "a" * 4097], "a" * 200 + ": not a file name")),
    done("stitch_drawing --help", USAGE["stitch_drawing"]), done("stitch_drawing --version", "stitch_drawing 0.4.0\n"))

row("usage of stitch_design, with files there", HERE, misused("stitch_design"), *mistaken(
    ("stitch_design frob a.lst", "frob: not a command"), ("stitch_design look", "look: needs a file"),
    ("stitch_design look a.rw", "a.rw: no format has this ending"), ("stitch_design pass b.txt", "b.txt: no format has this ending"),
    ("stitch_design look a.lst strt=1", "strt=1: not a limit"), ("stitch_design pass a.lst short=-1", "short=-1: from 0 to 1000"),
    ("stitch_design compare a.lst", "a.lst: needs a file"), ("stitch_design compare a.lst b.lst -t", "-t: not understood"),
    ("stitch_design threads a.lst b.lst", "b.lst: not understood"), ("stitch_design edit", "edit: needs a file"),
    ("stitch_design edit a.lst", "a.lst: needs a file"), ("stitch_design edit a.lst b.dst", "b.dst: needs an edit"),
    ("stitch_design edit a.lst a.lst tie", "a.lst: is the input"), ("stitch_design edit a.lst b.txt tie", "b.txt: no format has this ending"),
    ("stitch_design edit b.txt b.lst tie", "b.txt: no format has this ending"),
    *[(f"stitch_design edit a.lst b.dst {edit}", f"{edit}: not an edit") for edit in (
        "strt=1", "turn=4", "mirror=z", "thread=0,1", "shift=60001,0", "bare=1", "centre=", "drop_empty", "cut", "carry=5", "=7")],
    *[(f"stitch_design edit a.lst b.dst tie {key}={number}", f"{key}={number}: from {least} to {most}")
      for key, least, most in (("tie", 8, 18), ("cut", 0, 60000), ("float", 1, 60000), ("merge", 1, 100), ("bean", 1, 10),
                               ("scale", 1, 1000)) for number in (least - 1, most + 1, "x", "")],
    ("stitch_design edit a.lst b.dst name=seventeen_letters", "name=seventeen_letters: at most 16 printable characters"),
    (["stitch_design", "edit", "a.lst", "b.dst", "name=a\tb"], "name=a\tb: at most 16 printable characters"),
    (["stitch_design", "edit", "", "b.dst", "tie"], ": not a file name"), (["stitch_design", "edit", "a.lst", "", "tie"], ": not a file name"),
    (["stitch_design", "w" * 201], "w" * 200 + ": not a command"), (["stitch_design", "look", "a" * 4097], "a" * 200 + ": not a file name")),
    done("stitch_design --help", USAGE["stitch_design"]), done("stitch_design --version", "stitch_design 0.4.0\n"))


# ---- inputs that are missing, folders or too long ----

def row_of_bad_input(name, commands):
    """Rows for an input of that name, which each of these commands reads."""
    row(f"{name} is missing", GIVEN, *[failed(words, f"cannot read {name}") for words in commands])
    row(f"{name} is a folder", {**GIVEN, name: Folder()}, *[failed(words, f"cannot read {name}") for words in commands])
    row(f"{name} has more than 64 MiB", {**GIVEN, name: Zeros(67108865)},
        *[refused(words, f"{name}: longer than 67108864 bytes") for words in commands])


row_of_bad_input("a.rw", OF_DRAWING)
row_of_bad_input("a.cert", OF_CERT)
row_of_bad_input("a.dst", of_design("dst"))
for ending in ("exp", "pec", "pes", "lst"):
    row_of_bad_input(f"a.{ending}", of_design(ending)[:1])

row("a drawing of 64 MiB is read", {"a.rw": Zeros(67108864)},
    refused("stitch route a.rw b.dst b.cert", "a.rw: line 1: not a redwork drawing"))


# ---- drawings with a fault ----

def row_of_bad_drawing(fault, line, drawing, commands=None):
    """A drawing that is refused. `migrate` reads versions 1 and 2 alone."""
    steps = [refused(words, f"a.rw: line {line}: {fault}") for words in commands or OF_DRAWING]
    if drawing.startswith("redwork 3"):
        steps = [refused(step.words, "a.rw: line 1: not a redwork drawing") if " migrate " in step.words else step
                 for step in steps]
    row(f"drawing: {fault} at line {line}", {**GIVEN, "a.rw": drawing}, *steps)


BAD_DRAWINGS = [
    # the first line
    ("not a redwork drawing", 1, ""),
    ("not a redwork drawing", 1, "redwork 4\n"),
    ("not a redwork drawing", 1, "redwork\n"),
    ("not a redwork drawing", 1, "redwork 1 1\n"),
    ("not a redwork drawing", 3, "# nothing\n \t\n"),
    ("not a redwork drawing", 3, text("# a comment", "", "color 1")),
    # words
    ("word not understood", 2, rw(1, "frob 1")),
    ("word not understood", 2, rw(1, "redwork 1")),
    ("word not understood", 2, rw(1, "step\v10")),
    ("word not understood", 2, rw(1, "name")),
    ("word not understood", 2, rw(1, "name one two")),
    ("word not understood", 2, rw(1, "name seventeen-letters")),
    ("word not understood", 2, rw(1, "name caf\u00e9")),
    ("word not understood", 3, rw(1, "name one", "name two")),
    ("word not understood", 3, rw(1, "color 1", "name one")),
    ("word not understood", 2, rw(1, "step")),
    ("word not understood", 2, rw(1, "step 1 2")),
    ("word not understood", 3, rw(1, "step 1", "step 1")),
    ("word not understood", 3, rw(1, "color 1", "step 1")),
    ("word not understood", 2, rw(1, "color")),
    ("word not understood", 2, rw(1, "color 1 2")),
    ("word not understood", 4, rw(1, "color 1", "line 0 0 10 0", "start 0 0")),
    ("word not understood", 4, rw(2, "color 1", "line 0 0 10 0", "end 0 0")),
    ("word not understood", 4, rw(3, "color 1", "line 0 0 10 0", "start 0")),
    ("word not understood", 4, rw(3, "color 1", "line 0 0 10 0", "end 0 0 0")),
    # numbers
    ("not a number", 2, rw(1, "step x")),
    ("not a number", 2, rw(1, "step +1")),
    ("not a number", 2, rw(1, "color 1x")),
    ("not a number", 3, rw(1, "color 1", "line 0 0 - 0")),
    ("not a number", 4, rw(3, "color 1", "line 0 0 10 0", "start 0 x")),
    ("number out of range", 2, rw(1, "step 0")),
    ("number out of range", 2, rw(1, "step 2048")),
    ("number out of range", 2, rw(1, "color 256")),
    ("number out of range", 2, rw(1, "color -1")),
    ("number out of range", 3, rw(1, "color 1", "line 0 0 30001 0")),
    ("number out of range", 3, rw(1, "color 1", "line 0 -30001 0 0")),
    ("number out of range", 3, rw(1, "color 1", "line 0 0 0 " + "9" * 40)),
    ("number out of range", 4, rw(3, "color 1", "line 0 0 10 0", "end 0 30001")),
    # lines of points
    ("too few points", 3, rw(1, "color 1", "line")),
    ("too few points", 3, rw(1, "color 1", "line 0 0")),
    ("too few points", 3, rw(1, "color 1", "line 0 0 10 0 20")),
    ("point repeated", 3, rw(1, "color 1", "line 0 0 0 0")),
    ("point repeated", 4, rw(2, "color 1", "line 0 0 10 0", "line 0 0 10 0 10 0 20 0")),
    # blocks
    ("block without a line", 2, rw(1, "color 1", "color 2", "line 0 0 10 0")),
    ("block without a line", 4, rw(2, "color 1", "line 0 0 10 0", "color 2")),
    ("no block", 2, rw(1, "line 0 0 10 0")),
    ("no block", 2, rw(3, "start 0 0")),
    ("no block", 3, rw(1, "step 10")),
    ("no block", 3, rw(1, "step 10")[:-1]),
    ("more than 255 blocks", 512, rw(1, *["color 1", "line 0 0 10 0"] * 256)),
    # limits
    ("more than 1024 lines", 1027, rw(1, "color 1", *["line 0 0 10 0"] * 1025)),
    ("more than 200000 steps", 10, rw(1, "step 1", "color 1", *["line 0 0 30000 0"] * 7)),
    # starts and ends
    ("not a junction", 4, rw(3, "color 1", "line 0 0 10 0 20 0", "start 10 0")),
    ("not a junction", 4, rw(3, "color 1", "line 0 0 10 0", "end 5 0", "color 2", "line 5 0 5 5")),
    ("start or end repeated", 5, rw(3, "color 1", "line 0 0 10 0", "start 0 0", "start 10 0")),
    ("start or end repeated", 6, rw(3, "color 1", "line 0 0 10 0", "end 0 0", "line 10 0 20 0", "end 20 0")),
]

for fault, line, drawing in BAD_DRAWINGS:
    row_of_bad_drawing(fault, line, drawing)

def snake(count, distance):
    """A way of that many points, each as far from the one before, over rows of 256."""
    points = []
    for place in range(count):
        y, x = divmod(place, 256)
        points.append((x if y % 2 == 0 else 255 - x, y))
    return [(distance * x, distance * y) for x, y in points]


def line_of(points):
    """The line of a drawing through points."""
    return "line " + " ".join(f"{x} {y}" for x, y in points)


row_of_bad_drawing("more than 65536 points", 4, rw(1, "step 1", "color 1", line_of(snake(65537, 1))))

# Sections: a line of 601 points that is drawn twice has 600 sections each time.
ROW_OF_601 = line_of([(10 * place, 0) for place in range(601)])
TWICE_601 = ["step 10", "color 1", ROW_OF_601, ROW_OF_601]
# 65,534 points in one line, and two in another that begins at a point inside the first: a cut lists this point again.
# Points are two steps apart, so that no stitch stands for one.
POINTS_65536 = ["step 1", "color 1", line_of(snake(65534, 2)), "line 2 0 2 -2"]

row_of_bad_drawing("more than 1024 lines", 5, rw(2, "color 1", *[line_of([(x, 0) for x in range(601)])] * 2))
for version, commands in ((2, OF_DRAWING), (1, ["stitch migrate a.rw b.rw"])):
    row_of_bad_drawing("more than 1024 lines", 6, rw(version, *TWICE_601), commands)
    row_of_bad_drawing("more than 65536 points", 6, rw(version, *POINTS_65536), commands)

# In version 1 the same text has two lines of 600 steps, which are sewn forwards and back.
row("a line of 601 points drawn twice, in version 1", {"a.rw": rw(1, *TWICE_601)},
    done("stitch route a.rw b.exp b.cert",
         text("block 1 piece 1 lines 2 cost 1200 retraced 0 penetrations 1201", "pieces 1 penetrations 1201"),
         {"b.cert": cert("piece 0", "walk 1 -2"),
          "b.exp": exp("block 1", *[f"needle {10 * (600 - abs(600 - at))} 0" for at in range(1201)], "trim")}),
    done("stitch check a.rw b.exp b.cert", "yes\n"))

row("a drawing of more than 1 MiB", {"a.rw": rw(1, "step 10", *["# " + "a comment " * 10] * 20000, "color 1", "line 0 0 40 0"),
                                     "a.lst": LINE_LIST, "a.cert": LINE_CERT},
    done("stitch check a.rw a.lst a.cert", "yes\n"))


# ---- certificates with a fault ----

BAD_CERTS = [
    (1, ""),
    (1, "redwork-certificate 1"),
    (1, text("redwork-certificate 2", "end")),
    (1, text("redwork-certificate 01", "end")),
    (2, "redwork-certificate 1\n"),
    (2, text("redwork-certificate 1", "", "end")),
    (2, cert("walk 1 -1")),
    (2, cert("piece")),
    (2, cert("piece 04", "walk 1 -1")),
    (2, cert("piece 4294967296", "walk 1 -1")),
    (2, cert("piece  4", "walk 1 -1")),
    (2, cert("piece 4 ", "walk 1 -1")),
    (3, cert("piece 4")),
    (3, cert("piece 4", "cut 8 1")),
    (3, cert("piece 4", "walk")),
    (3, cert("piece 4", "walk 1 0")),
    (3, cert("piece 4", "walk 1 --1")),
    (3, cert("piece 4", "walk 1 -1\r")),
    (4, cert("piece 4", "walk 1 -1", "cut")),
    (4, cert("piece 4", "walk 1 -1", "cut 0 1")),
    (4, cert("piece 4", "walk 1 -1", "cut 8 0")),
    (4, cert("piece 4", "walk 1 -1", "cut 8 2 1")),
    (4, cert("piece 4", "walk 1 -1", "cut 8 1 1")),
    (4, cert("piece 4", "walk 1 -1", "walk 1 -1")),
    (5, text("redwork-certificate 1", "piece 4", "walk 1 -1", "cut 8 1")),
    (5, LINE_CERT[:-1]),
    (6, LINE_CERT + "\n"),
    (6, LINE_CERT + "end\n"),
]

for line, given in BAD_CERTS:
    row(f"no certificate at line {line}", {**GIVEN, "a.cert": given},
        *[refused(words, f"a.cert: line {line}: not a certificate") for words in OF_CERT])


# ---- designs that aren't of their format ----

def row_of_bad_design(ending, offset, fault, content, few=False):
    """A file that is refused by each command that reads it, or by a few where it is long."""
    row(f"{ending}: {fault} at byte {offset}", {**GIVEN, f"a.{ending}": content},
        *[refused(words, f"a.{ending}: byte {offset}: {fault}") for words in of_design(ending)[::7 if few else 1]])


HEAD = b" " * 512
BLOCK = b"\x00" * 528

# DST: a sequin has the flags 01; 121 times 248 is above 30,000
row_of_bad_design("dst", 0, "file too short", b"")
row_of_bad_design("dst", 511, "file too short", HEAD[1:])
row_of_bad_design("dst", 512, "sequin", HEAD + bytes.fromhex("000043"))
row_of_bad_design("dst", 518, "sequin", HEAD + bytes.fromhex("000003 000083 000043 0000f3"))
row_of_bad_design("dst", 512 + 3 * 247, "point out of range",
                  HEAD + dst("block 1", "needle 0 0", "needle 121 0")[515:518] * 248)
# EXP: 127 times 237 is above 30,000
row_of_bad_design("exp", 0, "control code not known", bytes.fromhex("80030000"))
row_of_bad_design("exp", 2, "control code not known", bytes.fromhex("0000 80ff0000"))
for control in (0x00, 0x03, 0x05, 0x08, 0x81, 0xFF):
    row_of_bad_design("exp", 2, "control code not known", bytes([0, 0, 0x80, control, 0, 0]), few=True)
row_of_bad_design("exp", 2 * 236, "point out of range", bytes([127, 0]) * 237)
row_of_bad_design("exp", 2 * 236, "point out of range", bytes([0, 129]) * 237)
# 127 times 259 is above 32,767, and a jump lies within it
row_of_bad_design("exp", 4 * 258, "point out of range", bytes.fromhex("80047f00") * 259)
# PEC: 2,047 times 15 is above 30,000, and times 17 above 32,767
row_of_bad_design("pec", 0, "signature not known", b"")
row_of_bad_design("pec", 0, "signature not known", b"#PE")
row_of_bad_design("pec", 0, "signature not known", b"#PES0001" + BLOCK)
row_of_bad_design("pec", 0, "signature not known", b"#PAC0001", few=True)
row_of_bad_design("pec", 4, "file too short", b"#PEC")
row_of_bad_design("pec", 8, "file too short", b"#PEC0001", few=True)
row_of_bad_design("pec", 535, "file too short", b"#PEC0001" + BLOCK[1:])
row_of_bad_design("pec", 536 + 4 * 14, "point out of range", b"#PEC0001" + BLOCK + bytes.fromhex("87ff8000") * 15)
row_of_bad_design("pec", 536 + 4 * 16, "point out of range", b"#PEC0001" + BLOCK + bytes.fromhex("97ff9000") * 17)
# PES: the offset of the block is in 32 bits after the signature
row_of_bad_design("pes", 0, "signature not known", b"")
row_of_bad_design("pes", 0, "signature not known", b"#PEC0001" + BLOCK)
row_of_bad_design("pes", 0, "signature not known", b"#PAC0001", few=True)
row_of_bad_design("pes", 0, "signature not known", b"#PE", few=True)
row_of_bad_design("pes", 8, "file too short", b"#PES0001", few=True)
row_of_bad_design("pes", 11, "file too short", b"#PES0001\x0c\0\0")
row_of_bad_design("pes", 12, "file too short", b"#PES0001\xff\xff\xff\xff", few=True)
row_of_bad_design("pes", 12 + 527, "file too short", b"#PES0001\x0c\0\0\0" + BLOCK[1:])
row_of_bad_design("pes", 12 + 528, "file too short", b"#PES0001\xff\xff\xff\xff" + BLOCK)
row_of_bad_design("pes", 12 + 528 + 4 * 14, "point out of range", b"#PES0001\x0c\0\0\0" + BLOCK +
                  bytes.fromhex("87ff8000") * 15)
# the list: its first three lines have 14, 9 and 8 bytes
row_of_bad_design("lst", 0, "file too short", "")
row_of_bad_design("lst", 13, "file too short", "stitch-list 1")
row_of_bad_design("lst", 0, "signature not known", "stitch-list 2\n")
row_of_bad_design("lst", 14, "control code not known", text("stitch-list 1", "label", "block 1", "end"))
row_of_bad_design("lst", 14, "control code not known", text("stitch-list 1", "label [seventeen-letters]", "block 1", "end"))
row_of_bad_design("lst", 23, "control code not known", text("stitch-list 1", "label []", "needle 0 0", "end"))
row_of_bad_design("lst", 31, "control code not known", lst("block 1", "frob"))
row_of_bad_design("lst", 31, "control code not known", lst("block 1", "needle 00 0"))
row_of_bad_design("lst", 31, "control code not known", lst("block 1", "needle -0 0"))
row_of_bad_design("lst", 31, "control code not known", lst("block 1", "needle 0 0 0"))
row_of_bad_design("lst", 31, "control code not known", lst("block 1", "trim"))
row_of_bad_design("lst", 31, "control code not known", lst("block 1", "float 0 0"))
row_of_bad_design("lst", 31, "control code not known", lst("block 1", "needle " + "9" * 30 + " 0"))
row_of_bad_design("lst", 42, "control code not known", lst("block 1", "needle 0 0", "needle 2048 0"))
row_of_bad_design("lst", 31 + 8 * 254, "control code not known", lst("block 1", *["block 2"] * 255))
row_of_bad_design("lst", 35, "control code not known", lst("block 1") + "end\n")
row_of_bad_design("lst", 31, "point out of range", lst("block 1", "needle 30001 0"))
row_of_bad_design("lst", 31, "point out of range", lst("block 1", "needle 0 -999999999999"))
row_of_bad_design("lst", 42, "point out of range", lst("block 1", "needle 0 0", "float 0 30001"))
row_of_bad_design("lst", 42, "file too short", lst("block 1", "needle 0 0")[:-4])
row_of_bad_design("lst", 45, "file too short", lst("block 1", "needle 0 0")[:-1])
for offset, fault, content in [
        (27, "file too short", "a first line without an end"), (0, "signature not known", "stitch-list 1 \n"),
        (0, "signature not known", "redwork 1\n"), (14, "file too short", "stitch-list 1\n"),
        (14, "control code not known", "stitch-list 1\nblock 5\n"),
        (14, "control code not known", "stitch-list 1\nlabel [a ]\n"),
        (14, "control code not known", "stitch-list 1\nlabel [Roses of Damascus]\n"),
        (23, "control code not known", "stitch-list 1\nlabel []\nneedle 99999 0\n")]:
    row_of_bad_design("lst", offset, fault, content, few=True)
# these lines follow the three of 31 bytes; a line that is decided has at most 32 bytes
THREE_LINES = text("stitch-list 1", "label []", "block 5")
for offset, fault, lines in [
        (31, "file too short", ""), (46, "file too short", "needle 0 0\nneed"), (34, "file too short", "end"),
        (31, "control code not known", "trim\nend\n"), (31, "control code not known", "float 0 0\nend\n"),
        (47, "control code not known", "needle 0 0\ntrim\ntrim\nend\n"),
        (42, "control code not known", "needle 0 0\nneedle 0 2048\nend\n"),
        (31, "control code not known", "needle -0 0\nend\n"), (31, "control code not known", "needle 0 01\nend\n"),
        (31, "point out of range", "needle 30001 0\nend\n"),
        (31, "point out of range", "needle 0 12345678901234567890123\n"),
        (31, "control code not known", "needle 0 123456789012345678901234\n"),
        (64, "file too short", "needle 0 123456789012345678901234"), (31, "control code not known", "block 256\nend\n"),
        (31, "control code not known", "label []\nend\n"), (31, "control code not known", "end\r\n"),
        (35, "control code not known", "end\n\n")]:
    row_of_bad_design("lst", offset, fault, THREE_LINES + lines, few=True)

# A million commands and one more. In a list a loose needle has room 1 and a trim 4.
MILLION = 1000000
TOO_MANY = "more than 1000000 commands"
row_of_bad_design("dst", 512 + 3 * MILLION, TOO_MANY, HEAD + bytes.fromhex("000003") * (MILLION + 1), few=True)
row_of_bad_design("exp", 2 * MILLION, TOO_MANY, bytes(2 * MILLION + 2), few=True)
row_of_bad_design("pec", 536 + 2 * MILLION, TOO_MANY, b"#PEC0001" + BLOCK + bytes(2 * MILLION + 2), few=True)
row_of_bad_design("pes", 540 + 2 * MILLION, TOO_MANY, b"#PES0001\x0c\0\0\0" + BLOCK + bytes(2 * MILLION + 2), few=True)
row_of_bad_design("lst", 31 + 16 * 200000, TOO_MANY, lst("block 1", *["needle 0 0", "trim"] * 200000, "needle 0 0"), few=True)


# ---- designs that a format can't write ----

row("stitches longer than the limits", {"a.lst": lst("block 1", *path(0, 0, 121, 0, 249, -128)), "a.rw": LINE},
    refused("stitch convert a.lst b.dst", "b.dst: command 3: stitch longer than 121"),
    refused("stitch convert a.lst b.exp", "b.exp: command 3: stitch longer than 127"),
    refused("stitch edit a.lst b.dst turn=1", "b.dst: command 3: stitch longer than 121"),
    refused("stitch convert a.lst b.dst --cut", "b.dst: command 3: stitch longer than 121"),
    done("stitch convert a.lst b.dst --split", "needles 4 trims 0 stops 0\n",
         {"b.dst": dst("block 1", *path(0, 0, 121, 0, 185, -64, 249, -128))}))

# A move of -2,048 is read in a PEC block, and never written.
row("a stitch of 2048", {"a.pec": b"#PEC0001" + BLOCK + bytes.fromhex("0000 88008000 ff")},
    *[refused(f"stitch convert a.pec b.{ending}", f"b.{ending}: command 2: stitch longer than {limit}")
      for ending, limit in (("dst", 121), ("exp", 127), ("pes", 2047), ("lst", 2047))],
    refused("stitch edit a.pec b.pec mirror=x", "b.pec: command 2: stitch longer than 2047"),
    refused("stitch trace a.pec b.rw", "a.pec: command 2: link longer than 2047"))

# A float reads as a jump and a stitch. One of four jumps is too long for DST alone.
row("floats of three and four jumps", {"a.lst": lst("block 1", "needle 0 0", "float 363 0", "float 0 0", "float 364 0"),
                                       "b.lst": lst("block 1", "needle 0 0", "float 363 0")},
    refused("stitch convert a.lst b.dst", "b.dst: command 7: float too long"),
    refused("stitch convert a.lst b.dst --split", "b.dst: command 7: float too long"),
    done("stitch convert a.lst b.dst --cut", "needles 4 trims 3 stops 0\n",
         {"b.dst": dst("block 1", "needle 0 0", "trim", "needle 363 0", "trim", "needle 0 0", "trim", "needle 364 0")}),
    done("stitch convert b.lst b.dst", "needles 2 trims 0 stops 0\n",
         {"b.dst": dst("block 1", "needle 0 0", "float 363 0")}),
    done("stitch convert a.lst c.exp", "needles 4 trims 0 stops 0\n",
         {"c.exp": exp("block 1", "needle 0 0", "float 363 0", "float 0 0", "float 364 0")}))

row("too many stops", {"a.exp": bytes.fromhex("80010000") * 1000, "c.exp": bytes.fromhex("80010000") * 255},
    refused("stitch convert a.exp b.dst", "b.dst: command 1000: too many stops"),
    *[refused(f"stitch convert {name}.exp b.{ending}", f"b.{ending}: command 255: too many stops")
      for name in "ac" for ending in ("pec", "pes", "lst")],
    done("stitch convert a.exp b.exp", "needles 0 trims 0 stops 1000\n", {"b.exp": bytes.fromhex("80010000") * 1000}),
    done("stitch convert c.exp c.dst", "needles 0 trims 0 stops 255\n", {"c.dst": dst("block 1", *["block 1"] * 255)}))

# 200,000 times a loose needle with room 1 and a trim with room 4 are a million. The file is longer than 1 MiB.
PAIR = bytes.fromhex("0000 80800700")
row("a million commands written", {"a.exp": PAIR * 200000, "c.exp": PAIR * 200000 + bytes(2)},
    *[refused(f"stitch convert c.exp b.{ending}", f"b.{ending}: command 400001: more than 1000000 commands written")
      for ending in MAKERS],
    done("stitch convert a.exp b.exp", "needles 200000 trims 200000 stops 0\n", {"b.exp": PAIR * 200000}),
    done("stitch show a.exp", text("format exp", "label []", "commands 400000", "needles 200000", "trims 200000", "stops 0",
                                   "extent 0 0 0 0", "ended yes", "block 1 thread 1 needles 200000")))

# After the first needle each of these stitches is split into two: 1 + 2 * 500,000 is above a million.
row("a refit of too many commands", {"a.exp": bytes(2) + bytes([127, 0, 129, 0]) * 250000},
    refused("stitch convert a.exp b.dst --split", "b.dst: command 500001: too many commands"))


# ---- edits of designs, hoops ----

row("edits that are refused", {"a.lst": lst("block 1", *path(0, 0, 10, 0), "trim", "block 2", "needle 0 7")},
    refused("stitch edit a.lst b.lst shift=29991,0", "a.lst: command 2: moved out of range"),
    refused("stitch edit a.lst b.lst shift=0,-30001", "a.lst: command 1: moved out of range"),
    refused("stitch edit a.lst b.lst shift=0,29994", "a.lst: command 5: moved out of range"),
    refused("stitch edit a.lst b.lst turn=1 shift=0,29990 shift=0,1", "a.lst: command 2: moved out of range"),
    refused("stitch edit a.lst b.lst thread=3,5", "a.lst: no colour place 3, there are 2"),
    refused("stitch edit a.lst b.lst thread=2,5 thread=255,5", "a.lst: no colour place 255, there are 2"),
    done("stitch edit a.lst b.lst turn=1 shift=100,0 thread=2,9", "needles 3 trims 1 stops 1\n",
         {"b.lst": lst("block 1", *path(100, 0, 100, 10), "trim", "block 9", "needle 93 0")}))

row("hoops", {"a.lst": lst("block 1", *path(0, 0, 100, 0, 100, 200))},
    done("stitch hoop a.lst 100 200", "fits upright\n"), done("stitch hoop a.lst 200 100", "fits turned\n"),
    refused("stitch hoop a.lst 50 60", "too large by 50 140"), refused("stitch hoop a.lst 100 199", "too large by 0 1"))


# ---- places, differences and edits of designs ----

SHOP = ["block 5", *path(0, 0, 30, 0, 60, 0), "trim", "needle 99 0", "float 160 0", "block 7", "block 9",
        *path(0, 12, 0, 14, 0, 40)]
SHOP_REPORT = "needles 8 trims 1 stops 2\n"
# Each thread of SHOP begins and ends with a tie along itself, to 1 mm from its end by half of that.
TIED = ["block 5", *path(0, 0, 5, 0, 10, 0, 5, 0, 0, 0, 30, 0, 60, 0, 55, 0, 50, 0, 55, 0, 60, 0), "trim",
        *path(99, 0, 104, 0, 109, 0, 104, 0, 99, 0), "float 160 0", *path(155, 0, 150, 0, 155, 0, 160, 0), "block 7",
        "block 9", *path(0, 12, 0, 17, 0, 22, 0, 17, 0, 12, 0, 14, 0, 40, 0, 35, 0, 30, 0, 35, 0, 40)]
TIED_REPORT = "needles 32 trims 1 stops 2\n"

row("places of designs", {"a.lst": lst(*SHOP), "b.lst": lst("block 1", *path(0, 0, 0, 1, 99, 0, 1, 0, 0, 0)),
                          "e.lst": lst("block 1", *path(0, 0, 5, 0, 0, 0, 5, 0, 40, 0, 60, 0, 80, 0, 100, 0)),
                          "c.lst": lst("block 1"), "d.exp": exp("block 1", "needle 0 0")[:2] + bytes.fromhex("8004640080010000")},
    refused("stitch_design pass a.lst", "a.lst: piece 1: not tied at its start"),
    refused("stitch_design pass b.lst short=1 long=0", "b.lst: piece 1: not tied at its start"),
    refused("stitch_design pass e.lst", "e.lst: piece 1: not tied at its end"),
    refused("stitch_design pass a.lst tie=0", "a.lst: command 7: float of 61 without a trim"),
    refused("stitch_design pass a.lst tie=0 float=61", "a.lst: block 2: no needle"),
    refused("stitch_design pass b.lst tie=0", "b.lst: command 2: stitch of 1"),
    refused("stitch_design pass b.lst tie=0 short=0 long=0 hole=3", "b.lst: command 1: 4 needles in one hole"),
    refused("stitch_design pass c.lst", "c.lst: no needle at all"),
    refused("stitch_design pass d.exp tie=0", "d.exp: stop 1: the frame moves by 100"),
    done("stitch_design look a.lst tie=0 float=0", text(
        "size 160 40", "origin 0 0", "block 1 thread 5 Red needles 5 length 121 shortest 30 longest 30",
        "block 2 thread 7 Magenta needles 0 length 0 shortest 0 longest 0",
        "block 3 thread 9 Lilac needles 3 length 28 shortest 2 longest 26",
        "block 2: no needle", "command 11: stitch of 2", "places 2")),
    done("stitch_design threads a.lst", text(
        "block 1 thread 5 Red #ed171f needles 5 length 121", "block 2 thread 7 Magenta #913697 needles 0 length 0",
        "block 3 thread 9 Lilac #915fac needles 3 length 28")))

row("differences of designs", {
    "a.lst": lst(*SHOP), "a.exp": exp(*SHOP), "b.lst": lst(*SHOP, label="other"), "c.lst": lst(*SHOP[:3], "trim", *SHOP[5:]),
    "d.lst": lst(*SHOP[:6], "needle 160 0", *SHOP[7:]), "e.lst": lst(*SHOP[:-1]), "f.lst": lst(*SHOP[:6], "block 7"),
    "g.lst": lst("block 5", *SHOP[1:7], "block 8", *SHOP[8:])},
    done("stitch_design compare a.lst b.lst --threads", ""), done("stitch_design compare a.lst a.exp", ""),
    refused("stitch_design compare a.lst c.lst", "act 3: needle 60 0, trim"),
    refused("stitch_design compare a.lst d.lst", "act 6: float 160 0, needle 160 0"),
    refused("stitch_design compare a.lst e.lst", "act 11: needle 0 40, end"),
    refused("stitch_design compare f.lst a.lst", "act 6: stop, float 160 0"),
    refused("stitch_design compare a.lst g.lst --threads", "block 2: thread 7, 8"))

row("edits of designs", {"a.lst": lst(*SHOP)},
    done("stitch_design edit a.lst b.lst tie", TIED_REPORT, {"b.lst": lst(*TIED)}),
    done("stitch_design edit b.lst c.lst bare", SHOP_REPORT, {"c.lst": lst(*SHOP)}),
    done("stitch_design edit a.lst c.pes tie", TIED_REPORT, {"c.pes": pes(*TIED)}),
    done("stitch_design edit c.pes d.pec bare", SHOP_REPORT, {"d.pec": pec(*SHOP)}),
    done("stitch_design compare a.lst d.pec --threads", ""),
    done(["stitch_design", "edit", "a.lst", "f.lst", "name=Rose 2 "], SHOP_REPORT, {"f.lst": lst(*SHOP, label="Rose 2")}),
    done("stitch_design edit a.lst e.exp cut=60 drop-empty", "needles 8 trims 2 stops 1\n", {
        "e.exp": exp(*SHOP[:6], "trim", "needle 160 0", *SHOP[8:])}),
    done("stitch_design edit a.lst e.dst float=39 name=Rose", "needles 8 trims 0 stops 2\n", {
        "e.dst": dst(*SHOP[:4], "float 99 0", *SHOP[6:], label="Rose")}),
    done("stitch_design edit a.lst e.lst centre scale=200 turn=2 thread=3,1 shift=1,0 mirror=y", SHOP_REPORT, {
        "e.lst": lst("block 5", *path(161, -40, 101, -40, 41, -40), "trim", "needle -37 -40", "float -159 -40", "block 7",
                     "block 1", *path(161, -16, 161, -12, 161, 40))}))

# The thumbnails of the design that is written, wherever the edit stands: of a design that is wide, one that is high, one that
# is a single needle, and one without a needle. They are read as blank ones are.
HIGH = ["block 3", "needle 0 -50", "needle 7 -30", "float 20 -30", "needle 0 150", "trim", "needle 20 150", "needle -9 11",
        "block 4"]
row("thumbnails of designs", {"a.lst": lst(*SHOP), "high.lst": lst(*HIGH), "one.lst": lst("block 1", "needle 5 -9"),
                              "none.lst": lst("block 1", "block 2")},
    done("stitch_design edit a.lst b.pes thumbnails", SHOP_REPORT, {"b.pes": pes(*SHOP, drawn=True)}),
    done("stitch_design edit b.pes c.pec thumbnails tie", TIED_REPORT, {"c.pec": pec(*TIED, drawn=True)}),
    done("stitch_design compare a.lst b.pes --threads", ""), done("stitch_design compare b.pes a.lst --threads", ""),
    done("stitch_design edit c.pec d.pec bare", SHOP_REPORT, {"d.pec": pec(*SHOP)}),
    done("stitch_design edit high.lst d.PES thumbnails thumbnails", "needles 6 trims 1 stops 1\n", {
        "d.PES": pes(*HIGH, drawn=True)}),
    done("stitch_design edit one.lst d.pec name=one thumbnails", "needles 1 trims 0 stops 0\n", {
        "d.pec": pec("block 1", "needle 5 -9", label="one", drawn=True)}),
    done("stitch_design edit none.lst d.pec thumbnails", "needles 0 trims 0 stops 1\n", {"d.pec": pec("block 1", "block 2")}),
    *[refused(f"stitch_design edit a.lst e.{ending} scale=900 thumbnails", f"e.{ending}: no thumbnails in this format")
      for ending in ("dst", "exp", "lst")],
    refused("stitch_design edit a.lst e.pec scale=1000 thumbnails shift=30000,0", "a.lst: edit 3: command 2 moved out of range"),
    misused("stitch_design edit a.lst e.pec thumbnails=1", "thumbnails=1: not an edit"))
assert ROWS[-1].steps[0].after["b.pes"][-912:].hex() == "".join(6 * count * "00" if not row else row * count for count, row in (
    (14, ""), (1, "f0ff07100008"), (1, ""), (8, "100000000000"), (28, ""), (1, "f0ff07100008"), (77, ""), (8, "100000000000"),
    (14, "")))

row("edits of designs that are refused", {"a.lst": lst(*SHOP), "far.lst": lst("block 1", *path(29900, 0, 30000, 0)),
                                          "full.exp": bytes(2 * MILLION)},
    refused("stitch_design edit far.lst b.lst turn=0 shift=1,0", "far.lst: edit 2: command 2 moved out of range"),
    refused("stitch_design edit far.lst b.lst scale=200", "far.lst: edit 1: command 1 moved out of range"),
    refused("stitch_design edit a.lst b.lst thread=4,1", "a.lst: edit 1: no block 4, there are 3"),
    refused("stitch_design edit full.exp b.lst name=full tie", "full.exp: edit 2: more than 1000000 commands"),
    refused("stitch_design edit a.lst b.dst scale=900", "b.dst: command 2: stitch longer than 121"),
    failed("stitch_design edit a.lst none/b.lst tie", "cannot write none/b.lst"))

# What is routed and tied goes to the machine, and has its certificate when it is bared.
TIED_LINE = ["block 1", *path(0, 0, 5, 0, 10, 0, 5, 0, 0, 0, 10, 0, 20, 0, 30, 0, 40, 0, 30, 0, 20, 0, 10, 0, 0, 0,
                              5, 0, 10, 0, 5, 0, 0, 0), "trim"]
row("a routed design, tied and bared", {"a.rw": LINE},
    done("stitch double a.rw b.dst b.cert", text("block 1 piece 1 lines 1 cost 4 penetrations 9", "pieces 1 penetrations 9"),
         {"b.dst": dst(*LINE_ACTS), "b.cert": cert("piece 4", "walk 1 -1")}),
    done("stitch route a.rw c.dst c.cert",
         text("block 1 piece 1 lines 1 cost 4 retraced 4 penetrations 9", "pieces 1 penetrations 9"),
         {"c.dst": dst(*LINE_ACTS), "c.cert": cert("piece 4", "walk 1 -1", "cut 4 1", "cut 4 2")}),
    refused("stitch_design pass c.dst tie=9", "c.dst: piece 1: not tied at its start"),
    done("stitch_design edit c.dst d.exp tie", "needles 17 trims 1 stops 0\n", {"d.exp": exp(*TIED_LINE)}),
    done("stitch_design pass d.exp", ""), done("stitch_design edit d.exp d.lst tie=18", "needles 17 trims 1 stops 0\n", {
        "d.lst": lst(*TIED_LINE)}),
    done("stitch_design edit d.exp e.pes bare", "needles 9 trims 1 stops 0\n", {"e.pes": pes(*LINE_ACTS)}),
    done("stitch check a.rw e.pes c.cert", "yes\n"), done("stitch_design compare c.dst e.pes", ""))


# ---- steps above a limit ----

row("steps at the limits and above", {
    "a.rw": rw(1, "step 122", "color 1", "line 0 0 122 0"), "b.rw": rw(1, "step 128", "color 1", "line 0 0 128 0"),
    "c.rw": rw(1, "step 2047", "color 1", "line 0 0 2047 0")},
    *[refused(f"stitch {command} {name}.rw d.{ending} d.cert",
              f"{name}.rw: step {step} is above {limit}, the limit of {ending}")
      for command in ("route", "double")
      for name, step, ending, limit in (("a", 122, "dst", 121), ("b", 128, "exp", 127), ("c", 2047, "dst", 121),
                                        ("c", 2047, "exp", 127))],
    *[done(f"stitch double c.rw d.{ending} d.cert",
           text("block 1 piece 1 lines 1 cost 1 penetrations 3", "pieces 1 penetrations 3"),
           {f"d.{ending}": make("block 1", *path(0, 0, 2047, 0, 0, 0), "trim"), "d.cert": cert("piece 1", "walk 1 -1")})
      for ending, make in (("pec", pec), ("pes", pes), ("lst", lst))])

# A closed line whose stitches go from 101 to 121 on an axis, in each direction: the records of DST with its largest digits.
LARGE = [(0, 0)]
for size in range(101, 122):
    LARGE += [(LARGE[-1][0] + size, LARGE[-1][1]), (LARGE[-1][0] + size, LARGE[-1][1] + size)]
for size in range(121, 100, -1):
    LARGE += [(LARGE[-1][0] - size, LARGE[-1][1]), (LARGE[-1][0] - size, LARGE[-1][1] - size)]
LARGE_ACTS = ["block 1", *[f"needle {x} {y}" for x, y in LARGE], "trim"]
row("stitches of 101 to 121 in DST", {"a.rw": rw(1, "step 121", "color 1", line_of(LARGE)), "a.lst": lst(*LARGE_ACTS)},
    done("stitch route a.rw b.dst b.cert",
         text("block 1 piece 1 lines 1 cost 84 retraced 0 penetrations 85", "pieces 1 penetrations 85"),
         {"b.dst": dst(*LARGE_ACTS), "b.cert": cert("piece 0", "walk 1")}),
    done("stitch convert b.dst b.lst", "needles 85 trims 1 stops 0\n", {"b.lst": lst(*LARGE_ACTS)}),
    done("stitch convert a.lst c.dst", "needles 85 trims 1 stops 0\n", {"c.dst": dst(*LARGE_ACTS)}),
    done("stitch check a.rw c.dst b.cert", "yes\n"))


# ---- formats ----

row("two bytes of EXP as PEC", {"a.exp": bytes(2)},
    done("stitch convert a.exp b.pec", "needles 1 trims 0 stops 0\n", {"b.pec": pec("block 1", "needle 0 0")}))
assert len(ROWS[-1].steps[0].after["b.pec"]) == 995 and ROWS[-1].steps[0].after["b.pec"][-456:] == bytes(456)

# What a design reads as: in DST a trim is three jumps, and the third reads as a trim and a jump; in PEC a trim is followed by
# a jump; a list has no jump but that of the float.
SHOWN = ["block 1", *path(0, 0, 20, 0), "block 2", *path(5, 5, 5, 9), "trim", "block 3", "needle -70 63", "float -7 1"]
row("a design in five formats, with endings in capitals", {
    f"a.{ending.upper()}": make(*SHOWN, label="A [b] c") for ending, make in MAKERS.items()},
    *[done(f"stitch show a.{ending.upper()}", text(
        f"format {ending}", f"label [{label}]", f"commands {commands}", "needles 6", "trims 1", "stops 2",
        "extent -70 0 20 63", "ended yes", "block 1 thread 1 needles 2", "block 2 thread 2 needles 2",
        "block 3 thread 3 needles 2"))
      for ending, label, commands in (("dst", "A [b] c", 15), ("exp", "", 12), ("pec", "A [b] c", 13), ("pes", "A [b] c", 13),
                                      ("lst", "A [b] c", 10))])

THREE = ["block 1", *path(0, 0, 20, 0), "block 7", *path(5, 5, 5, 9), "block 20", "needle -70 63", "needle -7 1"]
row("three blocks of PEC have four thumbnails", {"a.lst": lst(*THREE, label="Three")},
    done("stitch convert a.lst b.pec", "needles 6 trims 0 stops 2\n", {"b.pec": pec(*THREE, label="Three")}),
    done("stitch convert a.lst b.pes", "needles 6 trims 0 stops 2\n", {"b.pes": pes(*THREE, label="Three")}),
    done("stitch convert b.pes c.lst", "needles 6 trims 0 stops 2\n", {"c.lst": lst(*THREE, label="Three")}))
assert ROWS[-1].steps[0].after["b.pec"][-913:] == b"\xff" + bytes(912)

# The square's files have 512, 528 and 550 bytes before their records, and PEC has 456 after them.
row("the square in five formats", {"a.lst": lst(*SQUARE_ACTS)},
    *[done(f"stitch convert a.lst b.{ending}", "needles 5 trims 1 stops 0\n", {f"b.{ending}": make(*SQUARE_ACTS)})
      for ending, make in MAKERS.items()],
    *[done(f"stitch convert b.{ending} c.lst", "needles 5 trims 1 stops 0\n", {
        "c.lst": lst("block 5" if ending in ("pec", "pes", "lst") else "block 1", *SQUARE_ACTS[1:])})
      for ending in MAKERS])
SQUARES = {name: content for step in ROWS[-1].steps for name, content in step.after.items()}
assert SQUARES["b.exp"] == bytes.fromhex("0000 1e00 00e2 e200 001e 80800700")
assert SQUARES["b.dst"][512:] == bytes.fromhex("000003 000503 005003 000a03 00a003 824183 828283 824183 0000f3")
SQUARE_BODY = bytes.fromhex("0000 1e00 001e 6200 0062 a000 a000 ff")
assert SQUARES["b.pec"][536:] == SQUARE_BODY + bytes(456) and SQUARES["b.pes"][550:] == SQUARE_BODY + bytes(456)

# Lists are read as they are written. The last label has brackets, and a block may have any thread.
ROSE = text("stitch-list 1", "label [Rose of ] [ mas]", "block 0", "end")
row("lists with nothing, a far needle, far floats, and brackets in a label", {
    "a.lst": lst("block 5"), "b.lst": lst("block 5", "needle -30000 30000"),
    "c.lst": lst("block 5", "needle 0 0", "float 400 0"), "d.lst": lst("block 5", "needle 0 0", "float 0 2048"), "e.lst": ROSE},
    *[done(f"stitch convert {name}.lst f.lst", f"needles {needles} trims 0 stops 0\n", {"f.lst": SameAs(f"{name}.lst")})
      for name, needles in zip("abcde", (0, 1, 2, 2, 0))])

# As many blocks as a list may have, and as many commands as may be written: a needle has room 1 and a trim 4.
row("a list of 255 blocks and one of 400,000 commands", {
    "a.lst": lst("block 5", *["block 7"] * 254), "b.lst": lst("block 5", *["needle 0 0", "trim"] * 200000)},
    done("stitch convert a.lst c.lst", "needles 0 trims 0 stops 254\n", {"c.lst": SameAs("a.lst")}),
    done("stitch convert b.lst d.lst", "needles 200000 trims 200000 stops 0\n", {"d.lst": SameAs("b.lst")}))

# Of a run of jumps the third reads as a trim and a jump.
row("runs of jumps of DST", {
    f"a{jumps}.dst": HEAD + bytes.fromhex("000003" + "000083" * jumps + "000003 0000f3") for jumps in (2, 3, 4, 7)},
    *[done(f"stitch show a{jumps}.dst", text("format dst", "label []", f"commands {commands}", "needles 2", f"trims {trims}",
                                             "stops 0", "extent 0 0 0 0", "ended yes", "block 1 thread 1 needles 2"))
      for jumps, commands, trims in ((2, 4, 0), (3, 6, 1), (4, 7, 1), (7, 10, 1))])

# Two floats of one jump each are a stitch, and twice a jump and a stitch.
FLOATS = ["block 1", "needle 0 0", "float 10 0", "float 20 -5"]
row("five records of DST with two floats", {"a.dst": HEAD + dst(*FLOATS)[512:]},
    done("stitch edit a.dst b.dst turn=0", "needles 3 trims 0 stops 0\n", {"b.dst": dst(*FLOATS)}),
    done("stitch convert a.dst b.lst", "needles 3 trims 0 stops 0\n", {"b.lst": lst(*FLOATS)}))

# Of 513, 514 and 515 bytes the last alone have a record: a stitch by (30, 0).
row("a DST file that was cut off", {"a.dst": HEAD + b"\0", "b.dst": HEAD + b"\0\x05", "c.dst": HEAD + b"\0\x05\x03"},
    *[done(f"stitch show {name}.dst", text("format dst", "label []", "commands 0", "needles 0", "trims 0", "stops 0",
                                           "extent none", "ended no", "block 1 thread 1 needles 0")) for name in "ab"],
    done("stitch show c.dst", text("format dst", "label []", "commands 1", "needles 1", "trims 0", "stops 0",
                                   "extent 30 0 30 0", "ended no", "block 1 thread 1 needles 1")))

row("an EXP file that was cut off", {"a.exp": bytes.fromhex("0000 0a05 8003")},
    done("stitch show a.exp", text("format exp", "label []", "commands 2", "needles 2", "trims 0", "stops 0",
                                   "extent 0 -5 10 0", "ended no", "block 1 thread 1 needles 2")))

# The first parts of the square's files. Its five stitches have a record each. In DST its trim has three, of which the third is a
# jump as well, and the last record is the end; in PEC it has four bytes, and a byte 255 is the end. EXP has no end.
SIGNED = {"pec": 4, "pes": 4}
SQUARE_STARTS = {"dst": 512, "exp": 0, "pec": 536, "pes": 550}
SQUARE_COMMANDS = {"dst": [0, 1, 2, 3, 4, 5, 6, 7, 9], "exp": [0, 1, 2, 3, 4, 5, 5, 6],
                   "pec": [0, 1, 2, 3, 4, 5, 5, 7], "pes": [0, 1, 2, 3, 4, 5, 5, 7]}
SQUARE_EXTENTS = ["none", "0 0 0 0", "0 0 30 0", "0 0 30 30", "0 0 30 30", "0 0 30 30"]


def shown_part(ending, length, whole):
    """What `show` reports of that many first bytes, as a step."""
    name, start = f"a{length}.{ending}", SQUARE_STARTS[ending]
    if length < start:
        return refused(f"stitch show {name}", f"{name}: byte 0: signature not known" if length < SIGNED.get(ending, 0) else
                       f"{name}: byte {length}: file too short")
    size = 3 if ending == "dst" else 2
    commands = SQUARE_COMMANDS[ending][min((length - start) // size, len(SQUARE_COMMANDS[ending]) - 1)]
    needles, trimmed = min(commands, 5), commands == SQUARE_COMMANDS[ending][-1]
    has_end = {"dst": length == whole, "exp": length in (0, 2, 4, 6, 8, 10, 14)}.get(ending, length > start + 14)
    return done(f"stitch show {name}", text(
        f"format {ending}", "label []", f"commands {commands}", f"needles {needles}", f"trims {int(trimmed)}", "stops 0",
        f"extent {SQUARE_EXTENTS[needles]}", f"ended {'yes' if has_end else 'no'}",
        f"block 1 thread {5 if ending in SIGNED else 1} needles {needles}"))


for ending, start in SQUARE_STARTS.items():
    content = MAKERS[ending](*SQUARE_ACTS)
    lengths = [length for length in range(len(content) + 1)
               if length < 9 or start - 3 < length < start + 30 or length > len(content) - 2]
    row(f"first parts of the square as {ending}", {f"a{length}.{ending}": content[:length] for length in lengths},
        *[shown_part(ending, length, len(content)) for length in lengths])

TRIMMED = ["block 3", *path(0, 0, 10, 0), "trim", "block 4", *path(200, 0, 210, 7), "block 5", "needle 0 0", "trim"]
row("a trim before a stop", {"a.lst": lst(*TRIMMED, label="Both")},
    *[done(f"stitch convert a.lst b.{ending}", "needles 5 trims 2 stops 2\n", {f"b.{ending}": make(*TRIMMED, label="Both")})
      for ending, make in MAKERS.items()],
    done("stitch convert b.pes c.lst", "needles 5 trims 2 stops 2\n", {"c.lst": lst(*TRIMMED, label="Both")}),
    done("stitch convert b.exp d.lst", "needles 5 trims 2 stops 2\n",
         {"d.lst": lst(*["block 1", *TRIMMED[1:4], "block 2", *TRIMMED[5:7], "block 3", *TRIMMED[8:]])}))

# Two words 9xxx are a jump, a trim mark alone is a trim and a jump, and both marks are a jump. The byte 255 in place of the
# number of threads says that there is none.
row("a PEC block of another writer", {
    "a.pec": b"#PEC9999" + (b"LA:" + b"Old\xe9 one".ljust(16) + b"\r").ljust(48) + b"\xff".ljust(480) +
    bytes.fromhex("90059003 0000 a00aa000 0506 b001b000 0000 ff 1234")},
    done("stitch convert a.pec b.lst", "needles 3 trims 1 stops 0\n",
         {"b.lst": lst("block 1", "needle 5 3", "trim", "needle 20 9", "float 21 9", label="Old? one")}),
    done("stitch show a.pec", text("format pec", "label [Old? one]", "commands 7", "needles 3", "trims 1", "stops 0",
                                   "extent 5 3 21 9", "ended yes", "block 1 thread 1 needles 3")))


# ---- check ----

row("the first path's own three files", {"square.rw": SQUARE},
    done("stitch route square.rw square.dst square.cert",
         text("block 1 piece 1 lines 1 cost 4 retraced 0 penetrations 5", "pieces 1 penetrations 5"),
         {"square.dst": dst(*SQUARE_ACTS), "square.cert": SQUARE_CERT}),
    done("stitch check square.rw square.dst square.cert", "yes\n"))

row("a line sewn forwards and back", {"a.rw": LINE, "a.cert": LINE_CERT, "b.cert": cert("piece 4", "walk 1 -1", "cut 8 2"),
                                      "c.cert": cert("piece 4", "walk 1 -1", *["cut 1 1", "cut 1 2"] * 4), "a.lst": LINE_LIST},
    *[done(f"stitch check a.rw a.lst {name}.cert", "yes\n") for name in "abc"],
    done("stitch_picture a.rw a.cert a.svg", "", {"a.svg": A_PICTURE}),
    done("stitch route a.rw b.lst d.cert", text("block 1 piece 1 lines 1 cost 4 retraced 4 penetrations 9",
                                                "pieces 1 penetrations 9"), {"b.lst": LINE_LIST, "d.cert": A_CERT}),
    done("stitch double a.rw c.lst e.cert", text("block 1 piece 1 lines 1 cost 4 penetrations 9", "pieces 1 penetrations 9"),
         {"c.lst": LINE_LIST, "e.cert": cert("piece 4", "walk 1 -1")}))


def row_of_no(title, reason, drawing, certificate, design=LINE_LIST):
    """A certificate that is refused by `check`, and by the picture of a proof if the reason isn't in the design."""
    files = {"a.rw": drawing, "a.lst": design, "a.cert": certificate, "a.svg": "old picture"}
    steps = [refused("stitch check a.rw a.lst a.cert", f"no: {reason}")]
    if not reason.startswith("act"):
        steps.append(refused("stitch_picture a.rw a.cert a.svg", f"no: {reason}"))
    row(f"no: {title}", files, *steps)


def line_cert(walk="walk 1 -1", *cuts, retraced=4):
    """The certificate of one piece, with that walk and these cuts."""
    return cert(f"piece {retraced}", walk, *cuts)


TWO_PIECES = rw(1, "step 10", "color 1", "line 0 0 40 0", "line 0 10 40 10")
TWO_JOINED = rw(1, "step 10", "color 1", "line 0 0 40 0", "line 0 0 20 20 40 0")
FROM_TO = rw(3, "step 10", "color 1", "line 0 0 40 0", "start 0 0", "end 40 0")
FROM = rw(3, "step 10", "color 1", "line 0 0 40 0", "start 0 0")
TO = rw(3, "step 10", "color 1", "line 0 0 40 0", "end 40 0")

row_of_no("no piece", "certificate has 0 pieces, drawing has 1", LINE, cert())
row_of_no("two pieces", "certificate has 2 pieces, drawing has 1", LINE, cert(*["piece 4", "walk 1 -1", "cut 8 1"] * 2))
row_of_no("one piece of two", "certificate has 1 pieces, drawing has 2", TWO_PIECES, LINE_CERT)
row_of_no("a line that isn't drawn", "piece 1: pass 2 is not a line of the piece", LINE, line_cert("walk 1 2"))
row_of_no("a line of another piece", "piece 1: pass 1 is not a line of the piece", TWO_PIECES,
          cert("piece 4", "walk 2 -2", "cut 8 1", "piece 4", "walk 2 -2", "cut 8 1"))
row_of_no("a line of the piece before", "piece 2: pass 2 is not a line of the piece", TWO_PIECES,
          cert("piece 4", "walk 1 -1", "cut 8 1", "piece 4", "walk 2 -1", "cut 8 1"))
row_of_no("a broken walk", "piece 1: pass 2 does not start where the one before ends", LINE, line_cert("walk 1 1"))
row_of_no("another start", "piece 1: walk does not begin at its start", FROM_TO, line_cert("walk -1 1"))
row_of_no("another start where the end alone is given", "piece 1: walk does not begin at its start", TO, line_cert("walk 1 -1"))
row_of_no("another end", "piece 1: walk does not end at its end", FROM_TO, line_cert("walk 1 -1"))
row_of_no("another end where the start alone is given", "piece 1: walk does not end at its end", FROM, line_cert("walk 1"))
row_of_no("an open walk", "piece 1: walk is not closed", LINE, line_cert("walk 1"))
row_of_no("a line that isn't sewn", "piece 1: line 2 is not sewn", TWO_JOINED, line_cert("walk 1 -1"))
row_of_no("the second piece's line", "piece 2: line 3 is not sewn",
          rw(1, "step 10", "color 1", "line 0 0 40 0", "line 0 10 40 10", "line 0 10 20 30 40 10"),
          cert("piece 4", "walk 1 -1", "cut 8 1", "piece 4", "walk 2 -2"))
row_of_no("too little said", "piece 1: retraced 3 said, 4 found", LINE, line_cert("walk 1 -1", "cut 6 1", retraced=3))
row_of_no("too much said", "piece 1: retraced 4294967295 said, 4 found", LINE, line_cert("walk 1 -1", retraced=4294967295))
row_of_no("a cut of a junction that isn't there", "piece 1: cut 1 names junction 3", LINE, line_cert("walk 1 -1", "cut 8 3"))
row_of_no("an even cut", "piece 1: cut 2 holds 2 odd junctions", LINE, line_cert("walk 1 -1", "cut 8 1", "cut 8 1 2"))
row_of_no("an empty cut", "piece 1: cut 1 holds 0 odd junctions", LINE, line_cert("walk 1 -1", "cut 8"))
row_of_no("an overload", "piece 1: line 1 carries 9 halves, allowed 8", LINE, line_cert("walk 1 -1", "cut 9 1"))
row_of_no("another total", "piece 1: cuts give 7 halves, needed 8", LINE, line_cert("walk 1 -1", "cut 7 2"))
row_of_no("no cuts", "piece 1: cuts give 0 halves, needed 8", LINE, line_cert())
# With both ends given the two ends of the line are even, so no cut is odd.
row_of_no("a cut where start and end change what is odd", "piece 1: cut 1 holds 0 odd junctions", FROM_TO,
          line_cert("walk 1", "cut 1 1", retraced=0))
row_of_no("a pass with a fault before another", "piece 1: pass 2 does not start where the one before ends", LINE,
          line_cert("walk 1 1 2"))
row_of_no("a cut with both faults", "piece 1: cut 1 names junction 3", LINE, line_cert("walk 1 -1", "cut 8 1 2 3", "cut 8 4"))
row_of_no("a cut with a fault before another", "piece 1: cut 1 holds 2 odd junctions", LINE,
          line_cert("walk 1 -1", "cut 8 1 2", "cut 8 3"))
row_of_no("another first act", "act 1 differs", LINE, LINE_CERT, lst("block 1", *path(1, 0, 10, 0)))
row_of_no("no act", "act 1 differs", LINE, LINE_CERT, lst("block 1"))
row_of_no("a needle elsewhere", "act 5 differs", LINE, LINE_CERT, lst(*LINE_ACTS[:5], "needle 41 0", *LINE_ACTS[6:]))
row_of_no("a float in place of a stitch", "act 2 differs", LINE, LINE_CERT, lst(*LINE_ACTS[:2], "float 10 0", *LINE_ACTS[3:]))
row_of_no("no trim at the end", "act 10 differs", LINE, LINE_CERT, lst(*LINE_ACTS[:-1]))
row_of_no("a stop at the end", "act 11 differs", LINE, LINE_CERT, lst(*LINE_ACTS, "block 2"))

# The drawing, the file and the certificate are judged in this order.
row("three inputs with faults", {
    "a.rw": "", "a.exp": bytes.fromhex("80030000"), "a.cert": "", "b.rw": LINE, "b.lst": LINE_LIST},
    refused("stitch check a.rw a.exp a.cert", "a.rw: line 1: not a redwork drawing"),
    refused("stitch check a.rw none.exp none.cert", "a.rw: line 1: not a redwork drawing"),
    refused("stitch check b.rw a.exp a.cert", "a.exp: byte 0: control code not known"),
    refused("stitch check b.rw a.exp none.cert", "a.exp: byte 0: control code not known"),
    refused("stitch check b.rw b.lst a.cert", "a.cert: line 1: not a certificate"),
    failed("stitch check none.rw a.exp a.cert", "cannot read none.rw"))

# Label, threads and moves without a needle aren't judged, and a walk between given ends may have no cut.
row("what check doesn't judge", {"a.rw": LINE, "a.cert": LINE_CERT, "a.lst": lst("block 9", *LINE_ACTS[1:], label="Other"),
                                 "a.dst": HEAD + dst(*LINE_ACTS)[512:-3], "b.rw": FROM_TO, "b.cert": cert("piece 0", "walk 1"),
                                 "b.exp": bytes.fromhex("0000 0a00 0a00 0a00 0a00 80800700 80040505")},
    done("stitch check a.rw a.lst a.cert", "yes\n"), done("stitch check a.rw a.dst a.cert", "yes\n"),
    done("stitch check b.rw b.exp b.cert", "yes\n"))

# A certificate of more than 1 MiB: 140,000 cuts of one half for a line of 70,000 steps.
FAR = [(x, 0) for x in range(30001)] + [(30000, y) for y in range(1, 10001)] + [(x, 10000) for x in range(29999, -1, -1)]
row("a certificate of more than 1 MiB", {
    "a.rw": rw(1, "step 1", "color 1", "line 0 0 30000 0 30000 10000 0 10000"),
    "a.lst": lst("block 1", *[f"needle {x} {y}" for x, y in FAR + FAR[-2::-1]], "trim"),
    "a.cert": cert("piece 70000", "walk 1 -1", *["cut 1 1"] * 140000)},
    done("stitch check a.rw a.lst a.cert", "yes\n"))


# ---- pieces whose costs are known ----

def needles_of_line(step, *numbers):
    """The needles of a line of segments that whole steps divide evenly."""
    points = list(zip(numbers[::2], numbers[1::2]))
    needles = points[:1]
    for (a, b), (c, d) in zip(points, points[1:]):
        count = -(-max(abs(c - a), abs(d - b)) // step)
        needles += [(a + (c - a) * place // count, b + (d - b) * place // count) for place in range(1, count + 1)]
    return needles


def lengths_of(needles):
    """The lengths of the stitches, in thousandths of a millimetre, rounded down."""
    return [isqrt(((c - a) ** 2 + (d - b) ** 2) * 100 ** 2) for (a, b), (c, d) in zip(needles, needles[1:])]


def walk_list(lines, walk):
    """The list that sews lines of needles in the order of a walk."""
    needles = []
    for number in walk:
        line = lines[abs(number) - 1][::1 if number > 0 else -1]
        needles += line[1 if needles else 0:]
    return lst("block 1", *[f"needle {x} {y}" for x, y in needles], "trim")


def row_of_shape(title, step, lines, cost, retraced, needles, junctions, odd, walk, cuts, places=(), gap=2):
    """A drawing of one piece: its route, the look of it, and a walk and cuts that were found by hand."""
    sewn = [needles_of_line(step, *line) for line in lines]
    lengths = [length for line in sewn for length in lengths_of(line)]
    shortest, longest, short = min(lengths) // 100, max(lengths) // 100, sum(length < 1000 for length in lengths)
    total = sum(lengths) // 100
    across, down = [max(numbers) - min(numbers) for numbers in zip(*[line[k:k + 2] for line in lines for k in range(0, len(line), 2)])]
    drawing = rw(1, f"step {step}", "color 1", *["line " + " ".join(map(str, line)) for line in lines])
    row(title, {"a.rw": drawing, "a.lst": walk_list(sewn, walk),
                "a.cert": cert(f"piece {retraced}", "walk " + " ".join(map(str, walk)), *cuts)},
        done("stitch route a.rw b.lst b.cert",
             text(f"block 1 piece 1 lines {len(lines)} cost {cost} retraced {retraced} penetrations {needles}",
                  f"pieces 1 penetrations {needles}"), {"b.lst": A_LIST, "b.cert": A_CERT}),
        done("stitch check a.rw b.lst b.cert", "yes\n"), done("stitch check a.rw a.lst a.cert", "yes\n"),
        done("stitch_picture a.rw a.cert a.svg", "", {"a.svg": A_PICTURE}),
        done("stitch_picture a.rw b.cert b.svg", "", {"b.svg": A_PICTURE}),
        done(f"stitch_drawing look a.rw {gap}", text(
            f"size {across} {down} pieces 1",
            f"block 1 piece 1 lines {len(lines)} junctions {junctions} odd {odd} stitches {cost} shortest {shortest} "
            f"longest {longest} short {short} thread {total} travel 0",
            *places, f"pieces 1 places {len(places)} thread {total} travel 0")))


# Three parallel lines of 1, 2 and 5 steps: the shortest is sewn again, and carries both halves of its step.
row_of_shape("three parallel lines", 10, [(0, 0, 10, 0), (0, 0, 5, 10, 10, 0), (0, 0, 0, -20, 10, -20, 10, 0)],
             8, 1, 10, 2, 2, [1, -2, 3, -1], ["cut 2 1"])
row_of_shape("two closed lines at one junction", 10, [
    (0, 0, 10, 0, 10, 10, 0, 10, 0, 0), (0, 0, -10, 0, -10, -10, 0, -10, 0, 0)], 8, 0, 9, 1, 0, [1, -2], [])
row_of_shape("a bridge", 10, [(0, 0, -10, 10, -10, -10, 0, 0), (0, 0, 30, 0), (30, 0, 40, 10, 40, -10, 30, 0)],
             11, 3, 15, 2, 2, [1, 2, 3, -2], ["cut 6 1"])
row_of_shape("a lollipop", 10, [(0, 0, 20, 0), (20, 0, 30, 10, 30, -10, 20, 0)], 6, 2, 9, 2, 2, [1, 2, -1], ["cut 4 1"])
# The ends of the star are a tenth apart, so that only with the distance 0 none is near another line.
row_of_shape("a star of 40 lines", 25, [(0, 0, 25, y) for y in range(-20, 20)], 40, 40, 81, 41, 40,
             [number for line in range(1, 41) for number in (line, -line)], [f"cut 2 {end}" for end in range(2, 42)], gap=0)
K4 = [(0, 0, 30, 0), (0, 0, 30, 30), (0, 0, 0, 30), (30, 0, 30, 30), (30, 0, 0, 30), (30, 30, 0, 30)]
K4_WALK = [1, -1, 2, 6, -6, -4, 5, -3]
row_of_shape("each of four junctions with each", 30, K4, 6, 2, 9, 4, 4, K4_WALK,
             [f"cut 1 {junction}" for junction in range(1, 5)], ["block 1 line 2 and line 5 at 15 15: crossing"])
# An overload: the cuts weigh as much as they must, and line 1 leads from the first to the second.
row_of_no("two cuts that one line crosses", "piece 1: line 1 carries 3 halves, allowed 2",
          ROWS[-1].before["a.rw"], cert("piece 2", "walk " + " ".join(map(str, K4_WALK)), "cut 2 1", "cut 1 2", "cut 1 3"),
          ROWS[-1].before["a.lst"])


# ---- trace ----

row("designs that aren't sewn", {
    "a.lst": lst("block 1", *path(5, 5, 5, 5, 5, 5), "trim"), "b.lst": lst("block 1", "needle 0 0", "float 10 0"),
    "c.lst": lst("block 1", "needle 0 0", "block 2", "needle 10 0", "trim", "needle 20 0"), "d.exp": b""},
    *[refused(f"stitch trace {name} b.rw", f"{name}: nothing is sewn") for name in ("a.lst", "b.lst", "c.lst", "d.exp")])

# 256 blocks with a link each, 1,025 chains with a trim after each, and one chain of 65,537 points
row("designs that a drawing can't hold", {
    "a.exp": exp("block 1", *path(0, 0, 1, 0), *["block 1", "needle 0 0", "needle 1 0"] * 255),
    "b.exp": exp("block 1", *[act for place in range(1025) for act in (*path(2 * place, 0, 2 * place + 1, 0), "trim")]),
    "c.exp": exp("block 1", *[f"needle {x} {y}" for x, y in snake(65537, 1)])},
    refused("stitch trace a.exp b.rw", "a.exp: more than 255 blocks"),
    refused("stitch trace b.exp b.rw", "b.exp: more than 1024 lines"),
    refused("stitch trace c.exp b.rw", "c.exp: more than 65536 points"))

row("traced drawings", {"a.lst": lst(*SQUARE_ACTS, label="My square"), "b.lst": lst(
    "block 2", *path(0, 0, 0, 0, 10, 0, 0, 0, 0, 7), "float 9 9", "needle 9 4", "trim", "needle 3 3", "block 8", "needle 1 1")},
    done("stitch trace a.lst a.rw", "blocks 1 lines 1 links 4\n",
         {"a.rw": rw(2, "name My", "step 30", "color 5", "line 0 0 30 0 30 30 0 30 0 0")}),
    done("stitch trace b.lst b.rw", "blocks 1 lines 3 links 3\n",
         {"b.rw": rw(2, "step 10", "color 2", "line 0 0 10 0", "line 0 0 0 7", "line 9 9 9 4")}))


# ---- migrate, and the edits of drawings ----

CROSS = ["step 10", "color 1", "line 0 0 10 0 20 0", "line 10 -10 10 0 10 10"]
CUT_CROSS = ["step 10", "color 1", "line 0 0 10 0", "line 10 0 20 0", "line 10 -10 10 0", "line 10 0 10 10"]
row("a cross in versions 1 and 2", {"a.rw": rw(1, *CROSS), "g.rw": rw(2, *CROSS)},
    done("stitch migrate a.rw b.rw", "lines 4 pieces 1 cost 4\n", {"b.rw": rw(2, *CUT_CROSS)}),
    done("stitch migrate g.rw h.rw", "lines 4 pieces 1 cost 4\n", {"h.rw": rw(2, *CUT_CROSS)}),
    done("stitch migrate b.rw c.rw", "lines 4 pieces 1 cost 4\n", {"c.rw": rw(2, *CUT_CROSS)}),
    *[refused(f"stitch_drawing {command}", "a.rw: redwork 1 can't be kept: migrate it first") for command in (
        "snap 2 a.rw e.rw", "cross a.rw e.rw", "space a.rw e.rw", "free a.rw e.rw", "near a.rw e.rw", "edit a.rw e.rw turn=0")],
    done("stitch_drawing edit b.rw d.rw turn=0", "lines 4 pieces 1 cost 4\n", {"d.rw": rw(2, *CUT_CROSS)}),
    done("stitch_drawing edit b.rw d.rw shift=1,2 start=1,2 step=5", "lines 4 pieces 1 cost 8\n", {"d.rw": rw(
        3, "step 5", "color 1", "line 1 2 11 2", "line 11 2 21 2", "line 11 -8 11 2", "line 11 2 11 12", "start 1 2")}),
    done("stitch_drawing edit b.rw d.rw centre mirror=y", "lines 4 pieces 1 cost 4\n", {"d.rw": rw(
        2, "step 10", "color 1", "line -10 0 0 0", "line 0 0 10 0", "line 0 10 0 0", "line 0 0 0 -10")}))

# A line of another block cuts nothing. Lines are cut at points inside them that they list again, and where they come back to
# their first point; a closed line is cut at the points that another line lists, and alone stays whole.
row("lines that are cut into sections", {
    "a.rw": rw(1, "step 10", "color 1", CROSS[2], "color 2", *CROSS[2:]),
    "b.rw": rw(1, "step 10", "color 1", CROSS[2], "color 2", CROSS[3]),
    "c.rw": rw(1, "step 10", "color 1", "line 0 0 5 5 9 0 5 5 0 9", "line 30 0 33 3 30 0 30 7"),
    "d.rw": rw(1, "step 10", "color 1", "line 0 0 3 0 3 3 0 3 0 0", "line 3 0 0 3"),
    "e.rw": rw(1, "step 10", "color 1", "line 0 0 3 0 3 3 0 0")},
    done("stitch migrate a.rw k.rw", "lines 5 pieces 2 cost 6\n", {"k.rw": rw(
        2, "step 10", "color 1", CROSS[2], "color 2", *CUT_CROSS[2:])}),
    done("stitch migrate b.rw l.rw", "lines 2 pieces 2 cost 4\n", {"l.rw": rw(
        2, "step 10", "color 1", CROSS[2], "color 2", CROSS[3])}),
    done("stitch migrate c.rw m.rw", "lines 5 pieces 2 cost 7\n", {"m.rw": rw(
        2, "step 10", "color 1", "line 0 0 5 5", "line 5 5 9 0 5 5", "line 5 5 0 9", "line 30 0 33 3 30 0", "line 30 0 30 7")}),
    done("stitch migrate d.rw n.rw", "lines 4 pieces 1 cost 5\n", {"n.rw": rw(
        2, "step 10", "color 1", "line 0 0 3 0", "line 3 0 3 3 0 3", "line 0 3 0 0", "line 3 0 0 3")}),
    done("stitch migrate e.rw o.rw", "lines 1 pieces 1 cost 3\n", {"o.rw": rw(
        2, "step 10", "color 1", "line 0 0 3 0 3 3 0 0")}))

# The same 20 lines in three blocks, drawn row by row, and every second row upwards: a piece for each of the four columns.
COLUMNS = [f"line {x} {y + 10 * up} {x} {y + 10 - 10 * up}" for y, up in ((0, 0), (10, 1), (20, 0), (30, 1), (40, 0))
           for x in (0, 100, 200, 300)]
row("twelve columns in three blocks", {
    "a.rw": rw(2, "step 10", *[line for block in (1, 2, 3) for line in (f"color {block}", *COLUMNS)])},
    done("stitch_drawing look a.rw", text(
        "size 300 50 pieces 12", *[
            f"block {block} piece {4 * block + column - 4} lines 5 junctions 6 odd 2 stitches 5 shortest 10 longest 10 short 0 "
            f"thread 50 travel {100 if column > 1 else 300 if block > 1 else 0}" for block in (1, 2, 3) for column in (1, 2, 3, 4)],
        "pieces 12 places 0 thread 600 travel 1500")))

# In version 1 the T that both lines list is two pieces, and no command makes one of them. Lines that list no point twice but
# at their ends stay as they are.
row("a T and an L in version 1", {
    "a.rw": rw(1, "step 20", "color 1", "line 0 0 8 0 16 0", "line 8 0 8 5"),
    "b.rw": rw(1, "step 20", "color 1", "line 0 0 8 0", "line 8 0 8 5"),
    "c.rw": rw(1, "step 20", "color 1", "line 0 0 16 0", "line 8 -5 8 5")},
    done("stitch_drawing look a.rw 0", text(
        "size 16 5 pieces 2", "block 1 piece 1 lines 1 junctions 2 odd 2 stitches 2 shortest 8 longest 8 short 2 thread 16 travel 0",
        "block 1 piece 2 lines 1 junctions 2 odd 2 stitches 1 shortest 5 longest 5 short 1 thread 5 travel 8",
        "block 1 line 1: 2 stitches shorter than half a step, the first at 0 0, shortest 8, longest 8",
        "block 1 line 2: 1 stitch shorter than half a step, the first at 8 0, shortest 5, longest 5",
        "pieces 2 places 2 thread 21 travel 8")),
    *[refused(f"stitch_drawing {command}", "a.rw: redwork 1 can't be kept: migrate it first") for command in (
        "snap 0 a.rw e.rw", "cross a.rw e.rw --keep", "space a.rw e.rw leeway=1", "edit a.rw e.rw end=16,0", "edit a.rw e.rw step=1")],
    done("stitch_drawing snap 2 b.rw d.rw", "moved 0 listed 0 dropped 0 left 0 pieces 1 to 1\n", {"d.rw": rw(
        2, "step 20", "color 1", "line 0 0 8 0", "line 8 0 8 5")}),
    done("stitch_drawing cross c.rw f.rw", "crossings 1 listed 2 dropped 0 left 0 pieces 2 to 1\n", {"f.rw": rw(
        2, "step 20", "color 1", "line 0 0 8 0 16 0", "line 8 -5 8 0 8 5")}),
    done("stitch_drawing space c.rw g.rw", "points 4 to 4 stitches 2 to 2 shortest 10 to 10 longest 16 to 16 pieces 2\n", {"g.rw": rw(
        2, "step 20", "color 1", "line 0 0 16 0", "line 8 -5 8 5")}),
    done("stitch_drawing edit b.rw h.rw shift=1,0", "lines 2 pieces 1 cost 2\n", {"h.rw": rw(
        2, "step 20", "color 1", "line 1 0 9 0", "line 9 0 9 5")}))

# A comment is before the next color or line, and stays before it. The line "again" is left out with its comment, and "over" is
# cut behind its comment.
SAID = ["# top", "redwork 2", "step 25", "# red", "color 1", "# long", "line 0 0 100 0", "# over", "line 60 0 160 0 160 40", "# again",
        "line 0 0 60 0", "# blue", "color 2", "", " # apart", "line 0 90 40 90", "#end"]
row("comments of a drawing", {"a.rw": "\r\n".join(SAID) + "\r\n"},
    done("stitch_drawing snap 0 a.rw b.rw", "moved 0 listed 2 dropped 2 left 0 pieces 2 to 2\n", {"b.rw": text(
        "# top", "redwork 2", "step 25", "# red", "color 1", "# long", "line 0 0 60 0 100 0", "# over", "line 100 0 160 0 160 40",
        "# blue", "color 2", " # apart", "line 0 90 40 90", "#end")}),
    done("stitch_drawing cross b.rw c.rw", "crossings 0 listed 0 dropped 0 left 0 pieces 2 to 2\n", {"c.rw": SameAs("b.rw")}),
    done("stitch_drawing space c.rw d.rw", "points 8 to 8 stitches 12 to 12 shortest 40 to 40 longest 60 to 60 pieces 2\n", {
        "d.rw": SameAs("b.rw")}),
    done("stitch_drawing free c.rw e.rw", text(
        "block 1 piece 1 start 160 40 end 0 0 penetrations 21 to 11", "block 2 piece 2 start 40 90 end 0 90 penetrations 5 to 3",
        "penetrations 26 to 14 pieces 2"), {"e.rw": text(
        "# top", "redwork 3", "step 25", "# red", "color 1", "# long", "line 0 0 60 0 100 0", "# over", "line 100 0 160 0 160 40",
        "start 160 40", "end 0 0", "# blue", "color 2", " # apart", "line 0 90 40 90", "start 40 90", "end 0 90", "#end")}),
    done("stitch_drawing near c.rw f.rw", "travel 90 to 90 pieces 2\n", {"f.rw": SameAs("b.rw")}),
    # an edit keeps the comments of lines
    done("stitch_drawing edit a.rw g.rw step=20", "lines 4 pieces 2 cost 17\n", {"g.rw": text(
        "# top", "redwork 2", "step 20", "# red", "color 1", "# long", "line 0 0 100 0", "# over", "line 60 0 160 0 160 40", "# again",
        "line 0 0 60 0", "# blue", "color 2", " # apart", "line 0 90 40 90", "#end")}))

row("what a drawing may have between its words", {
    "a.rw": "\n".join([
        "#", "", " \t redwork\t 1 \r", "# c\r", "name\ta#b", "step 010\r", "\r", "color 05", " #",
        "line  00 -0\t040 -000 \t40 00010"])},
    done("stitch migrate a.rw b.rw", "lines 1 pieces 1 cost 5\n",
         {"b.rw": rw(2, "name a#b", "step 10", "color 5", "line 0 0 40 0 40 10")}))

# Pieces 1 and 2 are in block 1, piece 3 in block 2, and both blocks list the point 0 0.
THREE_PIECES = rw(3, "step 10", "color 1", "line 0 0 10 0", "line 20 0 25 0 30 0", "color 2", "line 0 0 0 10")
row("edits of a drawing that are refused", {"a.rw": THREE_PIECES}, *[
    refused(f"stitch_drawing edit a.rw b.rw {edits}", f"a.rw: edit {number}: {what}") for edits, number, what in [
        ("order=4,1", 1, "no piece 4"), ("order=1,1024", 1, "no piece 1024"), ("order=300,1", 1, "no piece 300"),
        ("order=1024,1024", 1, "no piece 1024"), ("turn=1 order=9,9", 2, "no piece 9"),
        ("order=1,1", 1, "both pieces are one"), ("centre order=3,3", 2, "both pieces are one"),
        ("order=1,3", 1, "pieces in different blocks"), ("order=2,1 order=3,2", 2, "pieces in different blocks"),
        ("start=0,0", 1, "two blocks list the point"), ("turn=0 turn=0 end=0,0", 3, "two blocks list the point"),
        ("start=5,5", 1, "not a junction"), ("end=5,0", 1, "not a junction"),
        ("start=20,0 start=30,0", 2, "start or end repeated"), ("end=20,0 end=25,0", 2, "start or end repeated"),
        ("shift=29971,0", 1, "number out of range"), ("turn=1 mirror=x shift=0,-30001", 3, "number out of range")]],
    done("stitch_drawing edit a.rw b.rw order=2,1 start=25,0", "lines 4 pieces 3 cost 4\n", {"b.rw": rw(
        3, "step 10", "color 1", "line 20 0 25 0", "line 25 0 30 0", "line 0 0 10 0", "start 25 0", "color 2",
        "line 0 0 0 10")}))

# 21,000 steps of 10 are 210,000 steps of 1.
row("edits of a drawing that exceed a limit", {
    "a.rw": rw(1, "step 10", "color 1", *["line 0 0 30000 0"] * 7), "b.rw": rw(1, *TWICE_601),
    "c.rw": rw(2, "step 1", "color 1", line_of(snake(65536, 2))),
    "d.rw": rw(2, "color 1", *[f"line 0 {y} 10 {y}" for y in range(1023)], "line 0 1023 5 1023 10 1023")},
    refused("stitch_drawing edit a.rw e.rw step=1", "a.rw: edit 1: more than 200000 steps"),
    refused("stitch_drawing edit a.rw e.rw turn=1 step=2 step=1", "a.rw: edit 3: more than 200000 steps"),
    refused("stitch_drawing edit b.rw e.rw turn=0", "b.rw: redwork 1 can't be kept: migrate it first"),
    refused("stitch_drawing edit d.rw e.rw start=5,1023", "d.rw: edit 1: more than 1024 lines"),
    refused("stitch_drawing edit d.rw e.rw turn=0 start=5,1023", "d.rw: edit 2: more than 1024 lines"),
    refused("stitch_drawing edit c.rw e.rw start=2,0", "c.rw: edit 1: more than 65536 points"))


# ---- snap and space ----

row("snaps that are refused", {
    # all points of the last line are within the gap of one place of the line before it
    "a.rw": rw(2, "step 10", "color 1", "line 0 0 80 0", "color 2", "line 0 0 80 0", "line 40 2 40 -2"),
    # 42 lines list their points on each of 26 others, and all are cut there
    "b.rw": rw(2, "step 25", "color 1", *[f"line 0 {25 * k} 1000 {25 * k}" for k in range(26)],
               *["line " + " ".join(f"{23 * i + 7} {25 * k}" for k in range(26)) for i in range(42)]),
    # the first line lists the end of the other, between its first two points
    "c.rw": rw(2, "step 1", "color 1", line_of(snake(65534, 2)), "line 1 0 1 -2"),
    # 200,000 steps, of which the first line has 19,998; its end moves to the last line, a step farther
    "d.rw": rw(1, "step 1", "color 1", "line 2 5 20000 5", *[f"line 0 {y} 30000 {y}" for y in range(100, 700, 100)],
               "line 20001 5 20001 7"),
    # the block lists 20 0 twice, and once after the copy is left out
    "e.rw": rw(3, "step 10", "color 1", "line 0 0 20 0 40 0", "line 0 0 20 0", "start 20 0"),
    "f.rw": rw(3, "step 10", "color 1", "line 0 0 10 0", "line 11 0 20 0", "start 0 0", "start 20 0"),
    "g.rw": rw(3, "step 10", "color 1", "line 0 0 10 0", "line 11 0 20 0", "end 0 0", "end 20 0")},
    refused("stitch_drawing snap 2 a.rw h.rw", "a.rw: block 2 line 3: would vanish"),
    refused("stitch_drawing snap 0 b.rw h.rw", "b.rw: more than 1024 lines after cutting: split the drawing"),
    refused("stitch_drawing snap 0 c.rw h.rw", "c.rw: more than 65536 points"),
    refused("stitch_drawing snap 1 d.rw h.rw", "d.rw: more than 200000 steps"),
    refused("stitch_drawing snap 1 e.rw h.rw", "e.rw: not a junction"),
    refused("stitch_drawing snap 1 f.rw h.rw", "f.rw: start or end repeated"),
    refused("stitch_drawing snap 1 g.rw h.rw", "g.rw: start or end repeated"))

row("large drawings of version 1 whose lines would be cut", {"b.rw": rw(1, *TWICE_601), "c.rw": rw(1, *POINTS_65536)}, *[
    refused(f"stitch_drawing {command} {name} h.rw", f"{name}: redwork 1 can't be kept: migrate it first")
    for command in ("snap 0", "cross", "space", "free", "near") for name in ("b.rw", "c.rw")])

NEAR = ["step 20", "color 1", "line 0 0 80 0 80 80 0 80 0 0", "line 40 1 40 40"]
row("a snap and a look", {"a.rw": rw(3, *NEAR)},
    done("stitch_drawing look a.rw", text(
        "size 80 80 pieces 2",
        "block 1 piece 1 lines 1 junctions 1 odd 0 stitches 16 shortest 20 longest 20 short 0 thread 320 travel 0",
        "block 1 piece 2 lines 1 junctions 2 odd 2 stitches 2 shortest 19 longest 20 short 0 thread 39 travel 40",
        "block 1 line 2 at 40 1: loose end, 1 from line 1", "pieces 2 places 1 thread 359 travel 40")),
    done("stitch_drawing snap 2 a.rw b.rw", "moved 1 listed 1 dropped 0 left 0 pieces 2 to 1\n", {"b.rw": rw(
        2, "step 20", "color 1", "line 0 0 40 0 80 0 80 80 0 80 0 0", "line 40 0 40 40")}),
    done("stitch_drawing snap 2 b.rw c.rw", "moved 0 listed 0 dropped 0 left 0 pieces 1 to 1\n", {"c.rw": rw(
        2, "step 20", "color 1", "line 0 0 40 0 80 0 80 80 0 80 0 0", "line 40 0 40 40")}))

# Two lines cross, and both list the point; a second run changes nothing.
row("crossed lines", {
    "a.rw": rw(2, "step 25", "color 1", "line 0 0 100 50", "line 30 90 40 0"),
    # an end on a segment, an overlap, and lines of two blocks
    "c.rw": rw(2, "step 25", "color 1", "line 0 0 40 0", "line 30 0 60 0", "line 50 30 50 0", "color 2", "line 10 -10 10 10"),
    # a line that is drawn again, the other way round, is left out, and its other part stays
    "d.rw": rw(2, "step 25", "color 1", "line 0 0 40 0", "line 40 0 0 0 0 30")},
    done("stitch_drawing cross a.rw b.rw", "crossings 1 listed 2 dropped 0 left 0 pieces 2 to 1\n", {"b.rw": rw(
        2, "step 25", "color 1", "line 0 0 38 19 100 50", "line 30 90 38 19 40 0")}),
    done("stitch_drawing cross b.rw e.rw", "crossings 0 listed 0 dropped 0 left 0 pieces 1 to 1\n", {"e.rw": rw(
        2, "step 25", "color 1", "line 0 0 38 19 100 50", "line 30 90 38 19 40 0")}),
    done("stitch_drawing cross c.rw f.rw", "crossings 0 listed 3 dropped 1 left 0 pieces 4 to 2\n", {"f.rw": rw(
        2, "step 25", "color 1", "line 0 0 30 0 40 0", "line 40 0 50 0 60 0", "line 50 30 50 0", "color 2", "line 10 -10 10 10")}),
    done("stitch_drawing cross c.rw g.rw --keep", "crossings 0 listed 3 dropped 0 left 0 pieces 4 to 2\n", {"g.rw": rw(
        2, "step 25", "color 1", "line 0 0 30 0 40 0", "line 30 0 40 0 50 0 60 0", "line 50 30 50 0", "color 2",
        "line 10 -10 10 10")}),
    done("stitch_drawing cross d.rw h.rw", "crossings 0 listed 0 dropped 1 left 0 pieces 1 to 1\n", {"h.rw": rw(
        2, "step 25", "color 1", "line 0 0 40 0", "line 0 0 0 30")}))

# The lines of a net of 40 by 40 are cut into more than 1,024.
row("crossed lines that are refused", {
    "a.rw": rw(2, "step 25", "color 1", *[f"line -5 {30 * i} 1200 {30 * i}" for i in range(40)],
               *[f"line {30 * i} -5 {30 * i} 1200" for i in range(40)]),
    "b.rw": rw(3, "step 25", "color 1", "line 0 0 100 50", "line 30 90 40 0", "start 0 0", "start 30 90")},
    refused("stitch_drawing cross a.rw c.rw", "a.rw: more than 1024 lines after cutting: split the drawing"),
    refused("stitch_drawing cross b.rw c.rw", "b.rw: start or end repeated"))


def row_of_meeting(title, command, lines, said, after, pieces):
    """Lines that are made to meet, and a second run, which changes nothing: the command, the lines as drawn and after it, what
    was done, and the pieces before and after. Lines without a colour are one block."""
    def drawing(drawn):
        return rw(2, "step 25", *[] if drawn[0].startswith("color") else ["color 1"], *drawn)

    quiet = "crossings 0" if command == "cross" else "moved 0"
    row(f"lines that meet: {title}", {"a.rw": drawing(lines)},
        done(f"stitch_drawing {command} a.rw b.rw", f"{said} left 0 pieces {pieces[0]} to {pieces[1]}\n", {"b.rw": drawing(after)}),
        done(f"stitch_drawing {command} b.rw c.rw", f"{quiet} listed 0 dropped 0 left 0 pieces {pieces[1]} to {pieces[1]}\n",
             {"c.rw": drawing(after)}))


row_of_meeting("ends on both sides of a line", "snap 2", ["line 0 0 100 0", "line 50 2 50 50", "line 50 -2 50 -50"],
               "moved 2 listed 1 dropped 0", ["line 0 0 50 0 100 0", "line 50 0 50 50", "line 50 0 50 -50"], (3, 1))
row_of_meeting("a point inside a line on another", "snap 0", ["line 0 0 100 0", "line 20 30 50 0 80 30"],
               "moved 0 listed 1 dropped 0", ["line 0 0 50 0 100 0", "line 20 30 50 0 80 30"], (2, 1))
row_of_meeting("lines that share a part", "snap 0", ["line 0 0 100 0", "line 60 0 160 0"],
               "moved 0 listed 2 dropped 1", ["line 0 0 60 0 100 0", "line 100 0 160 0"], (2, 1))
row_of_meeting("an end beside its own line", "snap 2", ["line 0 0 100 0 100 50 40 50 40 1"],
               "moved 1 listed 1 dropped 0", ["line 0 0 40 0 100 0 100 50 40 50 40 0"], (1, 1))
# Each end is 2 below a point of the path that is on it, at a slope of 1 in 4: the path stays straight.
row_of_meeting("twenty hatches that end on a path", "snap 2",
               ["line 0 0 400 100", *[f"line {20 * i + 12} {5 * i + 5} {20 * i + 12} {5 * i + 93}" for i in range(20)]],
               "moved 20 listed 20 dropped 0",
               ["line 0 0 " + " ".join(f"{20 * i + 12} {5 * i + 3}" for i in range(20)) + " 400 100",
                *[f"line {20 * i + 12} {5 * i + 3} {20 * i + 12} {5 * i + 93}" for i in range(20)]], (21, 1))
# Parallels 3 apart are a tenth and a half from each other on the larger axis, and 6 apart are 3.
DIAGONALS = [[f"line {apart * i} 0 {80 + apart * i} 80" for i in range(1024)] for apart in (3, 6)]
row_of_meeting("1,024 diagonals, none within 1 of another", "snap 1", DIAGONALS[0], "moved 0 listed 0 dropped 0", DIAGONALS[0],
               (1024, 1024))
row_of_meeting("1,024 diagonals, none within 2 of another", "snap 2", DIAGONALS[1], "moved 0 listed 0 dropped 0", DIAGONALS[1],
               (1024, 1024))
# Neighbours on the curve are within the gap, and are joined.
CURVE = ["line 0 0 2 0 4 0 6 1 8 2 9 4 10 6 10 8 10 10"]
row_of_meeting("a curve of points as close as the gap", "snap 2", CURVE, "moved 0 listed 0 dropped 0", CURVE, (1, 1))
TWO_BLOCKS = ["color 1", "line 0 0 40 0", "color 2", "line 20 1 20 40", "line 10 -10 10 10"]
row_of_meeting("lines of two blocks, within the gap", "snap 2", TWO_BLOCKS, "moved 0 listed 0 dropped 0", TWO_BLOCKS, (3, 3))
row_of_meeting("lines of two blocks that cross", "cross", TWO_BLOCKS, "crossings 0 listed 0 dropped 0", TWO_BLOCKS, (3, 3))
# The third one crosses at 20 and a half.
row_of_meeting("a line that crosses three", "cross", ["line 0 0 100 0", "line 10 -10 10 10", "line 30 -10 30 10", "line 20 -10 21 10"],
               "crossings 3 listed 6 dropped 0", ["line 0 0 10 0 21 0 30 0 100 0", "line 10 -10 10 0 10 10", "line 30 -10 30 0 30 10",
                                                  "line 20 -10 21 0 21 10"], (4, 1))
# Five parallels, each nearer than the gap to the next: in three rounds they become one piece, and two points are left beside
# segments, since what they stand for lies too far from there.
row("lines that meet: five diagonals within 2 of each other", {
    "a.rw": rw(2, "step 25", "color 1", *[f"line {3 * i} 0 {80 + 3 * i} 80" for i in range(5)]),
    "b.rw": rw(2, "step 25", "color 1", *DIAGONALS[0])},
    done("stitch_drawing snap 2 a.rw c.rw", "moved 8 listed 17 dropped 11 left 2 pieces 5 to 1\n", {"c.rw": rw(
        2, "step 25", "color 1", "line 0 0 2 2 4 3 6 5 85 77", "line 6 5 9 5 85 77 87 78", "line 87 78 89 78", "line 89 78 91 79",
        "line 9 5 89 78", "line 91 79 92 80")}),
    refused("stitch_drawing snap 2 b.rw d.rw", "b.rw: more than 1024 lines after cutting: split the drawing"))

row("a spaced line", {"a.rw": rw(3, "step 25", "color 1", "line 0 0 6 0 12 1 18 1 24 1 30 2 36 3 42 4 48 5")},
    done("stitch_drawing space a.rw b.rw",
         "points 9 to 3 stitches 8 to 2 shortest 6 to 24 longest 6 to 24 pieces 1\n",
         {"b.rw": rw(2, "step 25", "color 1", "line 0 0 24 1 48 5")}))


def slanted_line(number):
    """A line of 0.5 mm, 10 mm from the one with the number before on the same slanted line."""
    return f"line {60 * number} {80 * number} {60 * number + 3} {80 * number + 4}"


# The star has four odd junctions. Its two longest lines are sewn once, from tip to tip.
row("free ends, and less travel", {
    "a.rw": rw(2, "step 10", "color 1", "line 0 0 30 0", "line 0 0 0 20", "line 0 0 -20 0", "line 0 0 0 -10"),
    "b.rw": rw(2, "step 10", "color 1", "line 0 0 30 0", "line 200 0 210 0", "line 50 0 60 0"),
    "c.rw": rw(1, "step 20", "color 1", "line 0 0 8 0 16 0", "line 8 0 8 5"),
    "g.rw": rw(2, "step 10", "color 1", *[slanted_line(k) for k in (4, 3, 5, 2, 6, 1, 7, 0, 8)])},
    done("stitch_drawing free a.rw d.rw", text("block 1 piece 1 start -20 0 end 30 0 penetrations 17 to 12",
                                               "penetrations 17 to 12 pieces 1"),
         {"d.rw": rw(3, "step 10", "color 1", "line 0 0 30 0", "line 0 0 0 20", "line 0 0 -20 0", "line 0 0 0 -10",
                     "start -20 0", "end 30 0")}),
    done("stitch_drawing near b.rw e.rw", "travel 350 to 170 pieces 3\n",
         {"e.rw": rw(3, "step 10", "color 1", "line 200 0 210 0", "line 50 0 60 0", "line 0 0 30 0", "start 200 0",
                     "start 60 0", "start 30 0")}),
    done("stitch_drawing near g.rw h.rw", "travel 3600 to 795 pieces 9\n",
         {"h.rw": rw(3, "step 10", "color 1", *[slanted_line(k) for k in range(8, -1, -1)], "start 480 640",
                     *[f"start {60 * k + 3} {80 * k + 4}" for k in range(7, -1, -1)])}),
    refused("stitch_drawing free c.rw e.rw", "c.rw: redwork 1 can't be kept: migrate it first"),
    refused("stitch_drawing near c.rw e.rw", "c.rw: redwork 1 can't be kept: migrate it first"))


# ---- sample drawings ----

def row_of_sample(number, lines, odd, cost, retraced):
    """The sample drawing of one cell, with these lines."""
    row(f"the sample drawing of {number}", {"a.rw": "old"},
        done(f"stitch sample {number} a.rw", text(
            f"sample {number}", f"lines {len(lines)}", "junctions 4", f"odd {odd}", "pieces 1", f"cost {cost}",
            f"retraced {retraced}", f"penetrations {cost + retraced + 1}", f"cuts {2 * retraced}"),
            {"a.rw": rw(1, "name sample", "step 25", "color 1", *[f"line {line}" for line in lines])}),
        done("stitch route a.rw b.pes b.CERT", text(
            f"block 1 piece 1 lines {len(lines)} cost {cost} retraced {retraced} penetrations {cost + retraced + 1}",
            f"pieces 1 penetrations {cost + retraced + 1}"), {"b.pes": Text("#PES", "\0"), "b.CERT": A_CERT}),
        done("stitch check a.rw b.pes b.CERT", "yes\n"))


# The numbers below 50 that are drawn from 15 are 49 12 25 11 23 48 0 45, and the kind of the cell is 0: a square.
row_of_sample(15, ["49 12 125 11", "23 148 100 145", "49 12 23 148", "125 11 100 145"], 0, 20, 0)
# Kind 2 has one diagonal, of 5 steps, whose ends are odd.
row_of_sample(60, ["24 39 120 24", "19 102 107 148", "24 39 19 102", "120 24 107 148", "120 24 19 102"], 2, 21, 5)
# Kind 3 has both: each junction is odd, and the lines across, of 3 and 5 steps, are the least pairs.
row_of_sample(75, ["49 27 106 45", "1 141 126 149", "49 27 1 141", "106 45 126 149", "49 27 126 149", "106 45 1 141"], 4, 28, 8)


# ---- pictures ----

# The same acts and threads are the same picture, whatever their format.
row("a picture of each format", {f"a.{ending}": make(*SHOWN) for ending, make in MAKERS.items()},
    done("stitch_picture a.lst lst.svg", "", {"lst.svg": A_PICTURE}),
    done("stitch_picture a.lst a.svg 200 100", "", {"a.svg": A_PICTURE}),
    done("stitch_picture a.lst p.svg plain", "", {"p.svg": A_PICTURE}),
    done("stitch_picture a.lst q.svg plain=ffffff", "", {"q.svg": SameAs("p.svg")}),
    done("stitch_picture a.lst r.svg size=210x297", "", {"r.svg": A_PICTURE}),
    done("stitch_picture a.lst s.svg 200 100 size=10x2000", "", {"s.svg": A_PICTURE}),
    done("stitch_picture a.lst t.svg plain size=2000x10", "", {"t.svg": A_PICTURE}),
    done("stitch_picture a.lst u.svg plain=ffffff size=2000x10", "", {"u.svg": SameAs("t.svg")}),
    *[done(f"stitch_picture a.{ending} {ending}.svg", "", {f"{ending}.svg": SameAs("lst.svg")})
      for ending in ("dst", "exp", "pec", "pes")],
    *[done(f"stitch_picture a.{ending} {ending}.svg 200 100", "", {f"{ending}.svg": SameAs("a.svg")})
      for ending in ("dst", "exp", "pec", "pes")])

row("a picture replaces a file", {"a.rw": LINE, "a.cert": LINE_CERT, "a.svg": "old picture"},
    done("stitch_picture a.rw a.svg", "", {"a.svg": A_PICTURE}),
    done("stitch_picture a.rw a.cert a.svg", "", {"a.svg": A_PICTURE}),
    done("stitch_picture a.rw b.svg size=210x297", "", {"b.svg": A_PICTURE}),
    done("stitch_picture a.rw a.cert c.svg size=297x210", "", {"c.svg": A_PICTURE}))


# ---- outputs that can't be written ----

row("outputs in a folder that isn't there", {"a.rw": LINE, "a.lst": LINE_LIST, "a.cert": LINE_CERT},
    failed("stitch route a.rw b.lst none/b.cert", "cannot write none/b.cert"),
    failed("stitch double a.rw b.lst none/b.cert", "cannot write none/b.cert"),
    failed("stitch double a.rw none/b.lst b.cert", "cannot write none/b.lst", {"b.cert": cert("piece 4", "walk 1 -1")}),
    failed("stitch route a.rw none/b.lst b.cert", "cannot write none/b.lst", {"b.cert": A_CERT}),
    failed("stitch convert a.lst none/b.exp", "cannot write none/b.exp"),
    failed("stitch edit a.lst none/b.exp turn=1", "cannot write none/b.exp"),
    failed("stitch sample 75 none/b.rw", "cannot write none/b.rw"),
    failed("stitch migrate a.rw none/b.rw", "cannot write none/b.rw"),
    failed("stitch trace a.lst none/b.rw", "cannot write none/b.rw"),
    failed("stitch_picture a.lst none/b.svg", "cannot write none/b.svg"),
    failed("stitch_picture a.rw none/b.svg", "cannot write none/b.svg"),
    failed("stitch_picture a.rw a.cert none/b.svg", "cannot write none/b.svg"),
    failed("stitch_drawing snap 2 a.rw none/b.rw", "cannot write none/b.rw"),
    failed("stitch_drawing cross a.rw none/b.rw", "cannot write none/b.rw"),
    failed("stitch_drawing space a.rw none/b.rw", "cannot write none/b.rw"),
    failed("stitch_drawing edit a.rw none/b.rw turn=1", "cannot write none/b.rw"),
    failed("stitch_design edit a.lst none/b.exp tie", "cannot write none/b.exp"))

LONG = "a" * 4092
row("names of 4096 bytes", {"a.lst": LINE_LIST, "a.rw": LINE},
    failed(["stitch", "show", f"{LONG}.lst"], f"cannot read {LONG}.lst"),
    failed(["stitch", "convert", "a.lst", f"{LONG}.exp"], f"cannot write {LONG}.exp"),
    failed(["stitch_picture", "a.lst", f"{LONG}.svg"], f"cannot write {LONG}.svg"),
    failed(["stitch_drawing", "look", LONG + "aaaa"], f"cannot read {LONG}aaaa"),
    failed(["stitch_design", "look", f"{LONG}.lst"], f"cannot read {LONG}.lst"),
    failed(["stitch_design", "edit", "a.lst", f"{LONG}.lst", "tie"], f"cannot write {LONG}.lst"))

row("names of letters beyond ASCII", {"\u00e9 \u2603.lst": LINE_LIST},
    done(["stitch", "convert", "\u00e9 \u2603.lst", "\u00fc.exp"], "needles 9 trims 1 stops 0\n",
         {"\u00fc.exp": exp(*LINE_ACTS)}),
    failed(["stitch", "show", "\u00fc.lst"], "cannot read \u00fc.lst"))

row("outputs in other folders", {"a.rw": LINE, "a.lst": LINE_LIST, "b/old.exp": "old", "c/d/old": "old"},
    done("stitch convert a.lst b/new.exp", "needles 9 trims 1 stops 0\n", {"b/new.exp": exp(*LINE_ACTS)}),
    done("stitch convert a.lst b/old.exp", "needles 9 trims 1 stops 0\n", {"b/old.exp": exp(*LINE_ACTS)}),
    done("stitch double a.rw ./c/d/../../c/e.LST c/d/f", text("block 1 piece 1 lines 1 cost 4 penetrations 9",
                                                              "pieces 1 penetrations 9"),
         {"c/e.LST": LINE_LIST, "c/d/f": cert("piece 4", "walk 1 -1")}),
    done("stitch_picture c/e.LST b/c.svg", "", {"b/c.svg": A_PICTURE}),
    done("stitch_drawing space a.rw c/d/old",
         "points 2 to 2 stitches 4 to 4 shortest 40 to 40 longest 40 to 40 pieces 1\n",
         {"c/d/old": rw(2, "step 10", "color 1", "line 0 0 40 0")}))

row("outputs that are folders", {"a.rw": LINE, "a.lst": LINE_LIST, "b.exp": Folder(), "b.svg": Folder(), "b.rw": Folder()},
    failed("stitch convert a.lst b.exp", "cannot write b.exp"), failed("stitch_picture a.lst b.svg", "cannot write b.svg"),
    failed("stitch_drawing space a.rw b.rw", "cannot write b.rw"))
