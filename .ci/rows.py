#!/usr/bin/env python3
"""Runs the rows of .ci/row_table.py and the edges of .ci/row_edges.py, each in a fresh folder over real files, and compares
status, standard output, standard error and all files of the folder. Then scans the sources for the texts of refusals: each
must be in the standard error that some row expects.

    .ci/rows [WORD..]   runs the rows whose title has one of the words, or all with the scan

STITCH_BIN names a folder with the four programs, to be run in place of those of this repository.
"""
import os
import re
import stat
import subprocess
import sys
import tempfile
import time

sys.dont_write_bytecode = True
from row_files import Folder, SameAs, Text, Zeros  # noqa: E402
import row_edges  # noqa: E402
import row_table  # noqa: E402

TOP = os.path.dirname(os.path.dirname(os.path.abspath(__file__)))
LONGEST_SHOWN = 300
SECONDS = 60


def program_path(name):
    folder = os.environ.get("STITCH_BIN") or os.path.join(TOP, "crates", name, "out")
    return os.path.abspath(os.path.join(folder, name))


def write_file(path, content):
    os.makedirs(os.path.dirname(path), exist_ok=True)
    if isinstance(content, Folder):
        os.mkdir(path)
        return
    with open(path, "wb") as file:
        if isinstance(content, Zeros):
            file.truncate(content.length)
        else:
            file.write(as_bytes(content))


def as_bytes(content):
    return content.encode() if isinstance(content, str) else content


def is_content(path, content):
    """Whether the file at that path has that content."""
    seen = os.stat(path)
    if isinstance(content, Folder):
        return stat.S_ISDIR(seen.st_mode) and not os.listdir(path)
    if isinstance(content, Text):
        text = open(path, "rb").read()
        return text.startswith(as_bytes(content.begins)) and text.endswith(as_bytes(content.ends))
    if isinstance(content, Zeros):
        return seen.st_size == content.length and seen.st_blocks < 64
    if isinstance(content, SameAs):
        content = open(os.path.join(os.path.dirname(path), content.name), "rb").read()
    content = as_bytes(content)
    return seen.st_size == len(content) and open(path, "rb").read() == content


def names_in(folder):
    """The names of all files below the folder, and of the folders that are empty."""
    found = []
    for here, folders, files in os.walk(folder):
        found += [os.path.relpath(os.path.join(here, name), folder) for name in files]
        found += [os.path.relpath(os.path.join(here, name), folder) for name in folders
                  if not os.listdir(os.path.join(here, name))]
    return set(found)


def compared_files(folder, files):
    """What is wrong with the files of the folder, a line each."""
    there = names_in(folder)
    for name in sorted(there - set(files)):
        yield f"there is a file {name}"
    for name, content in sorted(files.items()):
        if name not in there:
            yield f"there is no file {name}"
        elif not is_content(os.path.join(folder, name), content):
            yield f"{name} has another content"


def shown(data):
    return repr(data if len(data) <= LONGEST_SHOWN else data[:LONGEST_SHOWN] + b"..")


class Rows:
    """What was run, and what was wrong."""

    def __init__(self, words):
        self.words, self.run, self.wrong, self.expected = words, 0, 0, set()

    def wants(self, title):
        return not self.words or any(word in title for word in self.words)

    def tell(self, title, words, faults):
        """Prints what is wrong with a step of a row."""
        if faults:
            self.wrong += 1
            print(f"rows: {title}: {words if isinstance(words, str) else words!r}")
            for fault in faults:
                print(f"    {fault}")

    def arguments(self, words):
        """The path of the program, and its arguments."""
        name, *rest = words.split() if isinstance(words, str) else words
        return [program_path(name), *rest]

    def result(self, folder, arguments, **streams):
        """The status, standard output and standard error of a run in that folder."""
        streams = {"stdin": subprocess.DEVNULL, "stdout": subprocess.PIPE, "stderr": subprocess.PIPE, **streams}
        try:
            done = subprocess.run(arguments, cwd=folder, timeout=SECONDS, check=False, **streams)
        except subprocess.TimeoutExpired:
            return f"none after {SECONDS} s", b"", b""
        return done.returncode, done.stdout or b"", done.stderr or b""

    def compare(self, step, status, out, err):
        """What is wrong with what a step printed, a line each."""
        self.run += 1
        self.expected.add(step.err)
        if status != step.status:
            yield f"status {status}, expected {step.status}"
        for name, found, wanted in (("output", out, step.out), ("error", err, step.err)):
            if wanted is not None and found != as_bytes(wanted):
                yield f"standard {name} {shown(found)}"
                yield f"expected {shown(as_bytes(wanted))}"

    def run_row(self, row):
        """Runs the steps of a row, up to the first that is wrong."""
        with tempfile.TemporaryDirectory(prefix="row") as folder:
            files = dict(row.before)
            for name, content in files.items():
                write_file(os.path.join(folder, name), content)
            for step in row.steps:
                faults = list(self.compare(step, *self.result(folder, self.arguments(step.words))))
                files.update(step.after)
                faults += compared_files(folder, files)
                self.tell(row.title, step.words, faults)
                if faults:
                    return


# The crates whose sources have the texts of refusals.
SCANNED = ("program_texts", "program_shell", "program_inputs", "route_texts", "stitch_cli",
           "picture_commands", "drawing_commands", "drawing_reports", "edited_designs", "design_commands")

# Literals that are no refusals, by file, with the reason.
EXCEPTIONS = {
    # reports of designs
    "program_texts/design_reports.rt": [
        "needles ", " trims ", " stops ", "format ", "label [", "commands ", "trims ", "stops ", "extent none", "extent ",
        "ended yes", "ended no", "block ", " thread ", " needles "],
    # reports of `migrate`, `trace`, `route`, `double` and `sample`
    "program_texts/migration_reports.rt": ["lines {lines} pieces {pieces} cost {cost}"],
    "program_texts/tracing_reports.rt": ["blocks {blocks} lines {lines} links {links}"],
    "route_texts/sewing_reports.rt": [
        "block {block} piece {piece} lines {}", " cost {cost} retraced {retraced} penetrations {penetrations}",
        " cost {cost} penetrations {penetrations}", "pieces {pieces} penetrations {penetrations}"],
    "route_texts/summary.rt": [
        "sample {}\nlines {}\njunctions {}\nodd {}\npieces {}", "cost {}\nretraced {}\npenetrations {}\ncuts {}"],
    # reports of `check` and `hoop`
    "stitch_cli/checking.rt": ["yes"],
    "stitch_cli/hooping.rt": ["fits upright", "fits turned"],
    # reports of `look`, `snap`, `cross`, `space`, `free` and `near`
    "drawing_reports/look_texts.rt": [
        "pieces {pieces} places {places}", " thread {thread} travel {travel}",
        " stitches {stitches} shortest {shortest} longest {longest} short {short}", "block {block} piece {number}",
        " lines {lines} junctions {junctions} odd {odd}", "size {across} {down} pieces {pieces}"],
    "drawing_reports/place_texts.rt": [
        "block {block} line {line}", " and line {number}", " at {x} {y}: ", "{what}, {distance} from line {other}",
        "loose end", "near point", "unlisted meeting", "crossing", "repeated segment", "overlap from {x} {y} to {u} {v}",
        "more than 65536 places: the first are named", ": {stitches} {noun}", "stitch", "stitches",
        " shorter than half a step, the first at {x} {y}", ", shortest {shortest}, longest {longest}"],
    "drawing_reports/meeting_texts.rt": [
        "moved {moved}", "crossings {crossings}", " listed {listed} dropped {dropped} left {left} ",
        "pieces {before} to {after}"],
    "drawing_reports/space_texts.rt": [
        "points {points} to {less} stitches {stitches} to {fewer} ",
        "shortest {short} to {shorter} longest {long} to {longer} "],
    "drawing_reports/free_texts.rt": [
        " penetrations {closed} to {cost}", " odd {odd} left", "penetrations {before} to {after} pieces {pieces}"],
    "drawing_commands/near_files.rt": ["travel {before} to {after} pieces {pieces}"],
    # the line of the version
    "program_texts/companion_usage.rt": [" 0.4.0"],
    # reports of `look` and `threads` of stitch_design, and the names of threads
    "design_commands/look_texts.rt": [
        "size {across} {down}", "origin 0 0", "origin {x} {y}", "block {number} thread {thread} ",
        " needles {needles} length {length}", " shortest {shortest} longest {longest}", "places {places}"],
    "design_commands/thread_texts.rt": ["thread {thread} ", "block {number} "],
    # words of the arguments
    "drawing_commands/drawing_edit_words.rt": ["centre", "step", "order", "start", "end"],
    "picture_commands/words.rt": ["--help", "--version"],
    "picture_commands/cloth_words.rt": ["plain", "ffffff"],
    "picture_commands/picture_names.rt": [".svg"],
    "picture_commands/size_words.rt": ["size"],
    "drawing_commands/requests.rt": ["look", "snap", "cross", "--keep", "space", "free", "near", "edit", "--help", "--version"],
    "drawing_commands/space_words.rt": ["length", "leeway"],
    "design_commands/requests.rt": ["look", "pass", "edit", "compare", "threads", "--threads", "--help", "--version"],
    "design_commands/limit_words.rt": ["short", "long", "float", "tie", "hole"],
    "edited_designs/edit_arguments.rt": ["tie", "bare", "centre", "drop-empty", "thumbnails", "name"],
    "edited_designs/edit_mistakes.rt": ["name"],
    "edited_designs/edit_keys.rt": ["tie", "cut", "float", "merge", "bean", "scale"],
    # A fault of memory isn't described by these: callers end with status 4 before.
    "program_texts/design_texts.rt": ["out of memory"],
    "program_texts/drawing_texts.rt": ["out of memory"],
    "program_shell/file_texts.rt": ["out of memory"],
}

# A comment, a clause that quotes a text, or a literal. The clauses are ghosts: there is nothing of them at run time.
TOKEN = re.compile(r'//[^\n]*|\bcodes\s+"(?:[^"\\]|\\.)*"|\'(?:[^\'\\]|\\.)\'|b?"((?:[^"\\]|\\.)*)"', re.S)
HOLE = re.compile(r"\{[^{}]*\}")


def literals_of(text):
    """The string literals of a source as they read at run time."""
    for token in TOKEN.finditer(text):
        if token.group(1) is not None:
            yield token.group(1).replace("\\n", "\n").replace('\\"', '"').replace("\\\\", "\\")


def occurs(literal, said):
    """Whether an expected text has the fixed words of a literal, in their order. After its last word the line ends, or a
    colon or a number follows: so a text that begins a longer one is expected for itself."""
    pattern = ".*".join(re.escape(part) for part in HOLE.split(literal))
    if literal[-1:].isalnum():
        pattern += r"(?=\n|:| [0-9])"
    return any(re.search(pattern, text) for text in said)


def unsaid_literals(said):
    """The literals of refusals that no row expects, and the exceptions that no source has, a line each."""
    for crate in SCANNED:
        folder = os.path.join(TOP, "crates", crate, "src")
        for name in sorted(os.listdir(folder)):
            place = f"{crate}/{name}"
            left = set(EXCEPTIONS.get(place, []))
            for literal in literals_of(open(os.path.join(folder, name), encoding="utf-8").read()):
                if literal.rstrip("\n") in EXCEPTIONS.get(place, []):
                    left.discard(literal.rstrip("\n"))
                elif not occurs(literal, said):
                    yield f"no row expects the text {literal!r} of {place}"
            for literal in sorted(left):
                yield f"no text of {place} is {literal!r}, an exception"


def main():
    begun = time.time()
    for name in row_table.USAGE:
        if not os.access(program_path(name), os.X_OK):
            sys.exit(f"rows: {program_path(name)} isn't there")
    rows = Rows(sys.argv[1:])
    for row in row_table.ROWS:
        if rows.wants(row.title):
            rows.run_row(row)
    for edge in row_edges.EDGES:
        if rows.wants(edge.title):
            with tempfile.TemporaryDirectory(prefix="row") as folder:
                edge.run(rows, folder)
    expected = rows.expected | {step.err for row in row_table.ROWS for step in row.steps}
    unsaid = [] if rows.words else list(unsaid_literals(expected))
    for line in unsaid:
        print(f"rows: {line}")
    print(f"rows: {rows.run} runs of a program for {len(row_table.ROWS)} rows and {len(row_edges.EDGES)} edges, "
          f"{rows.wrong} wrong, {time.time() - begun:.0f} s", file=sys.stderr)
    return 1 if rows.wrong or unsaid else 0


if __name__ == "__main__":
    sys.exit(main())
